package java.util;

import boomer.support.Keeps;

@Keeps("every element, as OneSet")
public class HashSet<E> extends OneSet<E> {
    public HashSet() { }

    public HashSet(int capacity) { }

    public HashSet(int capacity, float load) { }

    public HashSet(Collection<? extends E> others) {
        addAll(others);
    }
}
