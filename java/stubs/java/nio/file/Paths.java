package java.nio.file;

import boomer.support.Keeps;

@Keeps(value = "nothing", covers = "runs")
public final class Paths {
    private Paths() { }

    public static Path get(String first, String... more) {
        return Path.of(first, more);
    }
}
