package boomer.support;

/** The one place where the library's stubs call {@code equals} and {@code hashCode}, and where they iterate. */
public final class Same {
    private Same() { }

    /** Whether an object says that it equals another one. */
    public static boolean equal(Object a, Object b) {
        return a == b || a != null && a.equals(b);
    }

    /** One of the elements, each after some rounds; null where there is none. */
    @SuppressWarnings("unchecked")
    public static <E> E one(Iterable<? extends E> all) {
        E one = null;
        for (E each : all) {
            one = each;
        }
        return one;
    }

    /** The hash code of an object. */
    public static int hash(Object object) {
        return object == null ? 0 : object.hashCode();
    }
}
