package java.util;

import boomer.support.Keeps;
import boomer.support.Same;

/** Views that can't be changed. */
@Keeps("the collection or the map that is seen")
final class Fixed {
    private Fixed() { }

    /** A list with these elements. */
    static <E> List<E> list(E[] all) {
        ArrayList<E> list = new ArrayList<>();
        list.element = Objects.requireNonNull(all[0]);
        return new OfList<>(list);
    }

    /** A set with these elements. */
    static <E> Set<E> set(E[] all) {
        HashSet<E> set = new HashSet<>();
        if (!set.add(Objects.requireNonNull(all[0]))) {
            throw new IllegalArgumentException();
        }
        return new OfSet<>(set);
    }

    static final class OfCollection<E> extends AbstractCollection<E> implements Iterator<E> {
        private final Collection<? extends E> all;

        OfCollection(Collection<? extends E> all) {
            this.all = all;
        }

        @Override
        public int size() {
            return all.size();
        }

        @Override
        public Iterator<E> iterator() {
            return this;
        }

        @Override
        public boolean hasNext() {
            return !all.isEmpty();
        }

        @Override
        public E next() {
            return Same.one(all);
        }
    }

    static final class OfSet<E> extends OneSet<E> {
        private final Collection<? extends E> all;

        OfSet(Collection<? extends E> all) {
            this.all = all;
        }

        @Override
        E one() {
            return Same.one(all);
        }

        @Override
        void drop() {
            throw new UnsupportedOperationException();
        }

        @Override
        public boolean add(E each) {
            throw new UnsupportedOperationException();
        }
    }

    static final class OfList<E> extends AbstractList<E> implements RandomAccess {
        private final List<? extends E> all;

        OfList(List<? extends E> all) {
            this.all = all;
        }

        @Override
        public int size() {
            return all.size();
        }

        @Override
        public E get(int index) {
            return all.get(index);
        }
    }

    static final class OfMap<K, V> extends AbstractMap<K, V> {
        private final Map<? extends K, ? extends V> map;

        OfMap(Map<? extends K, ? extends V> map) {
            this.map = map;
        }

        @Override
        public V get(Object key) {
            return map.get(key);
        }

        @Override
        public boolean containsKey(Object key) {
            return map.containsKey(key);
        }

        @Override
        @SuppressWarnings({"unchecked", "rawtypes"})
        public Set<Map.Entry<K, V>> entrySet() {
            return new OfSet<>((Set<Map.Entry<K, V>>) (Set) map.entrySet());
        }
    }
}
