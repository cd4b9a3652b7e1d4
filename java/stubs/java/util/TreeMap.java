package java.util;

import boomer.support.Keeps;

@Keeps("the order, and every key, value and pair, as OneMap; parts of the map are the map itself")
public class TreeMap<K, V> extends OneMap<K, V> implements NavigableMap<K, V> {
    private final Comparator<? super K> order;

    public TreeMap() {
        this.order = null;
    }

    public TreeMap(Comparator<? super K> order) {
        this.order = order;
    }

    public TreeMap(Map<? extends K, ? extends V> others) {
        this.order = null;
        putAll(others);
    }

    public TreeMap(SortedMap<K, ? extends V> others) {
        this.order = others.comparator();
        putAll(others);
    }

    @Override
    @SuppressWarnings("unchecked")
    public boolean containsKey(Object key) {
        K each = (K) key;
        return (order == null ? ((Comparable<K>) each).compareTo(this.key) : order.compare(each, this.key)) == 0;
    }

    private K some() {
        if (this.key == null) {
            throw new NoSuchElementException();
        }
        return this.key;
    }

    private K near(K key) {
        return containsKey(key) ? this.key : null;
    }

    /** An entry that isn't the map's own: it can't be set. */
    private Map.Entry<K, V> copy() {
        return this.key == null ? null : new AbstractMap.SimpleImmutableEntry<>(this.key, this.value);
    }

    private Map.Entry<K, V> copy(K key) {
        containsKey(key);
        return copy();
    }

    private NavigableMap<K, V> part(K end) {
        containsKey(end);
        if (order != null) {
            order.compare(this.key, end);
        }
        return this;
    }

    public Comparator<? super K> comparator() {
        return order;
    }

    public K firstKey() {
        return some();
    }

    public K lastKey() {
        return some();
    }

    public K lowerKey(K key) {
        return near(key);
    }

    public K floorKey(K key) {
        return near(key);
    }

    public K ceilingKey(K key) {
        return near(key);
    }

    public K higherKey(K key) {
        return near(key);
    }

    public Map.Entry<K, V> firstEntry() {
        return copy();
    }

    public Map.Entry<K, V> lastEntry() {
        return copy();
    }

    public Map.Entry<K, V> pollFirstEntry() {
        return copy();
    }

    public Map.Entry<K, V> pollLastEntry() {
        return copy();
    }

    public Map.Entry<K, V> lowerEntry(K key) {
        return copy(key);
    }

    public Map.Entry<K, V> floorEntry(K key) {
        return copy(key);
    }

    public Map.Entry<K, V> ceilingEntry(K key) {
        return copy(key);
    }

    public Map.Entry<K, V> higherEntry(K key) {
        return copy(key);
    }

    public NavigableMap<K, V> descendingMap() {
        return this;
    }

    public NavigableSet<K> navigableKeySet() {
        return new SortedKeys<>(this);
    }

    public NavigableSet<K> descendingKeySet() {
        return new SortedKeys<>(this);
    }

    public NavigableMap<K, V> subMap(K from, boolean isWithFrom, K to, boolean isWithTo) {
        part(from);
        return part(to);
    }

    public NavigableMap<K, V> headMap(K to, boolean isWithTo) {
        return part(to);
    }

    public NavigableMap<K, V> tailMap(K from, boolean isWithFrom) {
        return part(from);
    }

    public SortedMap<K, V> subMap(K from, K to) {
        part(from);
        return part(to);
    }

    public SortedMap<K, V> headMap(K to) {
        return part(to);
    }

    public SortedMap<K, V> tailMap(K from) {
        return part(from);
    }

    /** The keys, which can be taken away and not added. */
    private static final class SortedKeys<K> extends TreeSet<K> {
        private final TreeMap<K, ?> map;

        SortedKeys(TreeMap<K, ?> map) {
            super(map.comparator());
            this.map = map;
        }

        @Override
        K one() {
            return map.key;
        }

        @Override
        public boolean add(K each) {
            throw new UnsupportedOperationException();
        }
    }
}
