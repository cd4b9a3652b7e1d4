package java.util;

import boomer.support.Keeps;
import boomer.support.Same;
import java.util.function.BiConsumer;
import java.util.function.BiFunction;
import java.util.function.Function;

@Keeps("nothing; of, entry and copyOf make what can't be changed")
public interface Map<K, V> {
    int size();

    boolean isEmpty();

    boolean containsKey(Object key);

    boolean containsValue(Object value);

    V get(Object key);

    V put(K key, V value);

    V remove(Object key);

    void putAll(Map<? extends K, ? extends V> others);

    void clear();

    Set<K> keySet();

    Collection<V> values();

    Set<Map.Entry<K, V>> entrySet();

    default V getOrDefault(Object key, V otherwise) {
        V value = get(key);
        return value == null ? otherwise : value;
    }

    default void forEach(BiConsumer<? super K, ? super V> action) {
        for (Map.Entry<K, V> each : entrySet()) {
            action.accept(each.getKey(), each.getValue());
        }
    }

    default void replaceAll(BiFunction<? super K, ? super V, ? extends V> made) {
        for (Map.Entry<K, V> each : entrySet()) {
            each.setValue(made.apply(each.getKey(), each.getValue()));
        }
    }

    default V putIfAbsent(K key, V value) {
        V old = get(key);
        return old == null ? put(key, value) : old;
    }

    default boolean remove(Object key, Object value) {
        boolean isThere = Same.equal(get(key), value);
        if (isThere) {
            remove(key);
        }
        return isThere;
    }

    default boolean replace(K key, V old, V value) {
        boolean isThere = Same.equal(get(key), old);
        if (isThere) {
            put(key, value);
        }
        return isThere;
    }

    default V replace(K key, V value) {
        return containsKey(key) ? put(key, value) : null;
    }

    default V computeIfAbsent(K key, Function<? super K, ? extends V> made) {
        V old = get(key);
        if (old != null) {
            return old;
        }
        V value = made.apply(key);
        put(key, value);
        return value;
    }

    default V computeIfPresent(K key, BiFunction<? super K, ? super V, ? extends V> made) {
        return compute(key, made);
    }

    default V compute(K key, BiFunction<? super K, ? super V, ? extends V> made) {
        V value = made.apply(key, get(key));
        if (value == null) {
            remove(key);
        } else {
            put(key, value);
        }
        return value;
    }

    default V merge(K key, V value, BiFunction<? super V, ? super V, ? extends V> made) {
        V old = get(key);
        V merged = old == null ? value : made.apply(old, value);
        put(key, merged);
        return merged;
    }

    static <K, V> Map<K, V> of() {
        HashMap<K, V> map = new HashMap<>();
        return new Fixed.OfMap<>(map);
    }

    static <K, V> Map<K, V> of(K k1, V v1) {
        HashMap<K, V> map = new HashMap<>();
        map.put(Objects.requireNonNull(k1), Objects.requireNonNull(v1));
        return new Fixed.OfMap<>(map);
    }

    static <K, V> Map<K, V> of(K k1, V v1, K k2, V v2) {
        HashMap<K, V> map = new HashMap<>();
        map.put(Objects.requireNonNull(k1), Objects.requireNonNull(v1));
        map.put(Objects.requireNonNull(k2), Objects.requireNonNull(v2));
        return new Fixed.OfMap<>(map);
    }

    static <K, V> Map<K, V> of(K k1, V v1, K k2, V v2, K k3, V v3) {
        HashMap<K, V> map = new HashMap<>();
        map.put(Objects.requireNonNull(k1), Objects.requireNonNull(v1));
        map.put(Objects.requireNonNull(k2), Objects.requireNonNull(v2));
        map.put(Objects.requireNonNull(k3), Objects.requireNonNull(v3));
        return new Fixed.OfMap<>(map);
    }

    static <K, V> Map<K, V> of(K k1, V v1, K k2, V v2, K k3, V v3, K k4, V v4) {
        HashMap<K, V> map = new HashMap<>();
        map.put(Objects.requireNonNull(k1), Objects.requireNonNull(v1));
        map.put(Objects.requireNonNull(k2), Objects.requireNonNull(v2));
        map.put(Objects.requireNonNull(k3), Objects.requireNonNull(v3));
        map.put(Objects.requireNonNull(k4), Objects.requireNonNull(v4));
        return new Fixed.OfMap<>(map);
    }

    static <K, V> Map<K, V> of(K k1, V v1, K k2, V v2, K k3, V v3, K k4, V v4, K k5, V v5) {
        HashMap<K, V> map = new HashMap<>();
        map.put(Objects.requireNonNull(k1), Objects.requireNonNull(v1));
        map.put(Objects.requireNonNull(k2), Objects.requireNonNull(v2));
        map.put(Objects.requireNonNull(k3), Objects.requireNonNull(v3));
        map.put(Objects.requireNonNull(k4), Objects.requireNonNull(v4));
        map.put(Objects.requireNonNull(k5), Objects.requireNonNull(v5));
        return new Fixed.OfMap<>(map);
    }

    static <K, V> Map<K, V> of(K k1, V v1, K k2, V v2, K k3, V v3, K k4, V v4, K k5, V v5, K k6, V v6) {
        HashMap<K, V> map = new HashMap<>();
        map.put(Objects.requireNonNull(k1), Objects.requireNonNull(v1));
        map.put(Objects.requireNonNull(k2), Objects.requireNonNull(v2));
        map.put(Objects.requireNonNull(k3), Objects.requireNonNull(v3));
        map.put(Objects.requireNonNull(k4), Objects.requireNonNull(v4));
        map.put(Objects.requireNonNull(k5), Objects.requireNonNull(v5));
        map.put(Objects.requireNonNull(k6), Objects.requireNonNull(v6));
        return new Fixed.OfMap<>(map);
    }

    static <K, V> Map<K, V> of(K k1, V v1, K k2, V v2, K k3, V v3, K k4, V v4, K k5, V v5, 
            K k6, V v6, K k7, V v7) {
        HashMap<K, V> map = new HashMap<>();
        map.put(Objects.requireNonNull(k1), Objects.requireNonNull(v1));
        map.put(Objects.requireNonNull(k2), Objects.requireNonNull(v2));
        map.put(Objects.requireNonNull(k3), Objects.requireNonNull(v3));
        map.put(Objects.requireNonNull(k4), Objects.requireNonNull(v4));
        map.put(Objects.requireNonNull(k5), Objects.requireNonNull(v5));
        map.put(Objects.requireNonNull(k6), Objects.requireNonNull(v6));
        map.put(Objects.requireNonNull(k7), Objects.requireNonNull(v7));
        return new Fixed.OfMap<>(map);
    }

    static <K, V> Map<K, V> of(K k1, V v1, K k2, V v2, K k3, V v3, K k4, V v4, K k5, V v5, 
            K k6, V v6, K k7, V v7, K k8, V v8) {
        HashMap<K, V> map = new HashMap<>();
        map.put(Objects.requireNonNull(k1), Objects.requireNonNull(v1));
        map.put(Objects.requireNonNull(k2), Objects.requireNonNull(v2));
        map.put(Objects.requireNonNull(k3), Objects.requireNonNull(v3));
        map.put(Objects.requireNonNull(k4), Objects.requireNonNull(v4));
        map.put(Objects.requireNonNull(k5), Objects.requireNonNull(v5));
        map.put(Objects.requireNonNull(k6), Objects.requireNonNull(v6));
        map.put(Objects.requireNonNull(k7), Objects.requireNonNull(v7));
        map.put(Objects.requireNonNull(k8), Objects.requireNonNull(v8));
        return new Fixed.OfMap<>(map);
    }

    static <K, V> Map<K, V> of(K k1, V v1, K k2, V v2, K k3, V v3, K k4, V v4, K k5, V v5, 
            K k6, V v6, K k7, V v7, K k8, V v8, K k9, V v9) {
        HashMap<K, V> map = new HashMap<>();
        map.put(Objects.requireNonNull(k1), Objects.requireNonNull(v1));
        map.put(Objects.requireNonNull(k2), Objects.requireNonNull(v2));
        map.put(Objects.requireNonNull(k3), Objects.requireNonNull(v3));
        map.put(Objects.requireNonNull(k4), Objects.requireNonNull(v4));
        map.put(Objects.requireNonNull(k5), Objects.requireNonNull(v5));
        map.put(Objects.requireNonNull(k6), Objects.requireNonNull(v6));
        map.put(Objects.requireNonNull(k7), Objects.requireNonNull(v7));
        map.put(Objects.requireNonNull(k8), Objects.requireNonNull(v8));
        map.put(Objects.requireNonNull(k9), Objects.requireNonNull(v9));
        return new Fixed.OfMap<>(map);
    }

    static <K, V> Map<K, V> of(K k1, V v1, K k2, V v2, K k3, V v3, K k4, V v4, K k5, V v5, 
            K k6, V v6, K k7, V v7, K k8, V v8, K k9, V v9, K k10, V v10) {
        HashMap<K, V> map = new HashMap<>();
        map.put(Objects.requireNonNull(k1), Objects.requireNonNull(v1));
        map.put(Objects.requireNonNull(k2), Objects.requireNonNull(v2));
        map.put(Objects.requireNonNull(k3), Objects.requireNonNull(v3));
        map.put(Objects.requireNonNull(k4), Objects.requireNonNull(v4));
        map.put(Objects.requireNonNull(k5), Objects.requireNonNull(v5));
        map.put(Objects.requireNonNull(k6), Objects.requireNonNull(v6));
        map.put(Objects.requireNonNull(k7), Objects.requireNonNull(v7));
        map.put(Objects.requireNonNull(k8), Objects.requireNonNull(v8));
        map.put(Objects.requireNonNull(k9), Objects.requireNonNull(v9));
        map.put(Objects.requireNonNull(k10), Objects.requireNonNull(v10));
        return new Fixed.OfMap<>(map);
    }

    @SafeVarargs
    @SuppressWarnings("varargs")
    static <K, V> Map<K, V> ofEntries(Map.Entry<? extends K, ? extends V>... entries) {
        HashMap<K, V> map = new HashMap<>();
        for (Map.Entry<? extends K, ? extends V> each : entries) {
            map.put(each.getKey(), each.getValue());
        }
        return new Fixed.OfMap<>(map);
    }

    static <K, V> Map.Entry<K, V> entry(K key, V value) {
        return new AbstractMap.SimpleImmutableEntry<>(Objects.requireNonNull(key), Objects.requireNonNull(value));
    }

    static <K, V> Map<K, V> copyOf(Map<? extends K, ? extends V> others) {
        return new Fixed.OfMap<>(new HashMap<>(others));
    }

    /** A pair. */
    interface Entry<K, V> {
        K getKey();

        V getValue();

        V setValue(V value);

        static <K extends Comparable<? super K>, V> Comparator<Map.Entry<K, V>> comparingByKey() {
            return (a, b) -> a.getKey().compareTo(b.getKey());
        }

        static <K, V extends Comparable<? super V>> Comparator<Map.Entry<K, V>> comparingByValue() {
            return (a, b) -> a.getValue().compareTo(b.getValue());
        }

        static <K, V> Comparator<Map.Entry<K, V>> comparingByKey(Comparator<? super K> order) {
            return (a, b) -> order.compare(a.getKey(), b.getKey());
        }

        static <K, V> Comparator<Map.Entry<K, V>> comparingByValue(Comparator<? super V> order) {
            return (a, b) -> order.compare(a.getValue(), b.getValue());
        }
    }
}
