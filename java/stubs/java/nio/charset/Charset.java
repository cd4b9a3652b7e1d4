package java.nio.charset;

import boomer.support.Keeps;

@Keeps(value = "nothing", covers = "runs")
public abstract class Charset implements Comparable<Charset> {
    static final Charset ONE = new One();

    protected Charset() { }

    public static Charset forName(String name) {
        if (name.isEmpty()) {
            throw new UnsupportedCharsetException(name);
        }
        return ONE;
    }

    public static Charset defaultCharset() {
        return ONE;
    }

    public final String name() {
        return new String();
    }

    public final int compareTo(Charset other) {
        return other.hashCode();
    }

    private static final class One extends Charset { }
}
