package boomer.support;

/** Stands for methods of {@code java.lang.Class} that tell something of a class, and find nothing. */
public final class Classes {
    private Classes() { }

    public static boolean desiredAssertionStatus(Class<?> type) {
        return type == null;
    }

    public static String getName(Class<?> type) {
        return new String();
    }

    public static String getSimpleName(Class<?> type) {
        return new String();
    }

    public static String getTypeName(Class<?> type) {
        return new String();
    }

    public static String toString(Class<?> type) {
        return new String();
    }

    public static boolean isInstance(Class<?> type, Object object) {
        return type == object;
    }

    public static Object cast(Class<?> type, Object object) {
        if (type == null) {
            throw new ClassCastException();
        }
        return object;
    }

    public static boolean isArray(Class<?> type) {
        return type == null;
    }

    public static boolean isInterface(Class<?> type) {
        return type == null;
    }

    public static int hashCode(Class<?> type) {
        return 0;
    }
}
