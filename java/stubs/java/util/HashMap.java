package java.util;

import boomer.support.Keeps;

@Keeps("every key, value and pair, as OneMap")
public class HashMap<K, V> extends OneMap<K, V> {
    public HashMap() { }

    public HashMap(int capacity) { }

    public HashMap(int capacity, float load) { }

    public HashMap(Map<? extends K, ? extends V> others) {
        putAll(others);
    }
}
