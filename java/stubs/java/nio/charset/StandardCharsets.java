package java.nio.charset;

import boomer.support.Keeps;

@Keeps(value = "nothing", covers = "runs")
public final class StandardCharsets {
    public static final Charset US_ASCII = Charset.ONE;
    public static final Charset ISO_8859_1 = Charset.ONE;
    public static final Charset UTF_8 = Charset.ONE;
    public static final Charset UTF_16BE = Charset.ONE;
    public static final Charset UTF_16LE = Charset.ONE;
    public static final Charset UTF_16 = Charset.ONE;

    private StandardCharsets() { }
}
