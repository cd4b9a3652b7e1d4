package boomer.support;

/** What unknown code was given, and what it made. */
public final class Kept {
    private static final Object[] ALL = new Object[1];

    private Kept() { }

    /** Keeps an object. */
    public static void put(Object object) {
        ALL[0] = object;
    }

    /** Anything that was kept. */
    public static Object any() {
        return ALL[0];
    }

    /** Moves what is kept; its body is made when the classes of the text are known, and calls the others. */
    public static void mix() {
        put(any());
    }
}
