package java.util;

import boomer.support.Keeps;

@Keeps("every element, as OneList")
public class ArrayDeque<E> extends LinkedList<E> {
    public ArrayDeque() { }

    public ArrayDeque(int capacity) { }

    public ArrayDeque(Collection<? extends E> others) {
        super(others);
    }
}
