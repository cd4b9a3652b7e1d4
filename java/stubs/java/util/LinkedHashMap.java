package java.util;

import boomer.support.Keeps;

@Keeps("every key, value and pair, as OneMap")
public class LinkedHashMap<K, V> extends HashMap<K, V> {
    public LinkedHashMap() { }

    public LinkedHashMap(int capacity) { }

    public LinkedHashMap(int capacity, float load) { }

    public LinkedHashMap(Map<? extends K, ? extends V> others) {
        putAll(others);
    }
}
