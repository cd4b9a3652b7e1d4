package java.util;

import boomer.support.Keeps;
import boomer.support.Same;
import java.util.function.Supplier;

@Keeps("nothing")
public final class Objects {
    private Objects() { }

    public static boolean equals(Object a, Object b) {
        return Same.equal(a, b);
    }

    public static boolean deepEquals(Object a, Object b) {
        return Same.equal(a, b) || Arrays.deepEquals((Object[]) a, (Object[]) b);
    }

    public static int hashCode(Object object) {
        return Same.hash(object);
    }

    public static int hash(Object... all) {
        return Arrays.hashCode(all);
    }

    public static String toString(Object object) {
        return String.valueOf(object);
    }

    public static String toString(Object object, String otherwise) {
        return object == null ? otherwise : object.toString();
    }

    public static <T> int compare(T a, T b, Comparator<? super T> order) {
        return a == b ? 0 : order.compare(a, b);
    }

    public static <T> T requireNonNull(T object) {
        if (object == null) {
            throw new NullPointerException();
        }
        return object;
    }

    public static <T> T requireNonNull(T object, String message) {
        if (object == null) {
            throw new NullPointerException(message);
        }
        return object;
    }

    public static <T> T requireNonNull(T object, Supplier<String> message) {
        if (object == null) {
            throw new NullPointerException(message == null ? null : message.get());
        }
        return object;
    }

    public static <T> T requireNonNullElse(T object, T otherwise) {
        return object == null ? requireNonNull(otherwise) : object;
    }

    public static <T> T requireNonNullElseGet(T object, Supplier<? extends T> otherwise) {
        return object == null ? requireNonNull(otherwise.get()) : object;
    }

    public static boolean isNull(Object object) {
        return object == null;
    }

    public static boolean nonNull(Object object) {
        return object != null;
    }

    public static int checkIndex(int index, int length) {
        if (index < 0) {
            throw new IndexOutOfBoundsException();
        }
        return index;
    }
}
