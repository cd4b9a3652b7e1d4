package java.util;

import boomer.support.Keeps;

@Keeps("every element, as OneSet")
public class LinkedHashSet<E> extends HashSet<E> {
    public LinkedHashSet() { }

    public LinkedHashSet(int capacity) { }

    public LinkedHashSet(int capacity, float load) { }

    public LinkedHashSet(Collection<? extends E> others) {
        addAll(others);
    }
}
