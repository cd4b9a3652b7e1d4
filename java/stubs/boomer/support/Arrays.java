package boomer.support;

/** Stands for what the JVM does with arrays. */
public final class Arrays {
    private Arrays() { }

    /** A copy of an array: a new array with the elements of the old one. */
    public static Object clone(Object array) {
        Object[] from = (Object[]) array;
        Object[] copy = new Object[from.length];
        for (int i = 0; i < from.length; i++) {
            copy[i] = from[i];
        }
        return copy;
    }
}
