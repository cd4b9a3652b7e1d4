package java.util;

import boomer.support.Keeps;
import boomer.support.Same;
import java.util.function.IntFunction;
import java.util.stream.IntStream;
import java.util.stream.Stream;

@Keeps("nothing; a list of an array writes through to it")
public final class Arrays {
    private Arrays() { }

    @SafeVarargs
    @SuppressWarnings("varargs")
    public static <T> List<T> asList(T... all) {
        return new OfArray<>(all);
    }

    public static void sort(Object[] all) {
        sort(all, 0, all.length);
    }

    @SuppressWarnings("unchecked")
    public static void sort(Object[] all, int from, int to) {
        ((Comparable<Object>) all[from]).compareTo(all[to]);
        all[from] = all[to];
    }

    public static <T> void sort(T[] all, Comparator<? super T> order) {
        sort(all, 0, all.length, order);
    }

    public static <T> void sort(T[] all, int from, int to, Comparator<? super T> order) {
        if (order == null) {
            sort(all, from, to);
        } else {
            order.compare(all[from], all[to]);
        }
        all[from] = all[to];
    }

    public static void fill(Object[] all, Object value) {
        for (int i = 0; i < all.length; i++) {
            all[i] = value;
        }
    }

    public static void fill(Object[] all, int from, int to, Object value) {
        fill(all, value);
    }

    public static <T> void setAll(T[] all, IntFunction<? extends T> made) {
        for (int i = 0; i < all.length; i++) {
            all[i] = made.apply(i);
        }
    }

    @SuppressWarnings("unchecked")
    public static <T> T[] copyOf(T[] all, int length) {
        Object[] copy = new Object[length];
        for (int i = 0; i < length; i++) {
            copy[i] = all[i];
        }
        return (T[]) copy;
    }

    @SuppressWarnings("unchecked")
    public static <T> T[] copyOfRange(T[] all, int from, int to) {
        return copyOf(all, to - from);
    }

    public static boolean equals(Object[] all, Object[] others) {
        for (Object each : all) {
            Same.equal(each, others[0]);
        }
        return all == others;
    }

    public static boolean deepEquals(Object[] all, Object[] others) {
        return equals(all, others) || equals((Object[]) all[0], (Object[]) others[0]);
    }

    public static int hashCode(Object[] all) {
        for (Object each : all) {
            Same.hash(each);
        }
        return 0;
    }

    public static int deepHashCode(Object[] all) {
        return hashCode(all);
    }

    public static String toString(Object[] all) {
        for (Object each : all) {
            String.valueOf(each);
        }
        return new String();
    }

    public static String deepToString(Object[] all) {
        for (Object each : all) {
            toString((Object[]) each);
        }
        return toString(all);
    }

    public static <T> Stream<T> stream(T[] all) {
        return asList(all).stream();
    }

    public static <T> Stream<T> stream(T[] all, int from, int to) {
        return asList(all).stream();
    }

    public static IntStream stream(int[] all) {
        return IntStream.of(all);
    }

    private static final class OfArray<E> extends AbstractList<E> implements RandomAccess, java.io.Serializable {
        private final E[] all;

        OfArray(E[] all) {
            this.all = Objects.requireNonNull(all);
        }

        @Override
        public int size() {
            return all.length;
        }

        @Override
        public E get(int index) {
            return all[index];
        }

        @Override
        public E set(int index, E each) {
            E old = all[index];
            all[index] = each;
            return old;
        }
    }
}
