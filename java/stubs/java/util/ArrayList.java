package java.util;

import boomer.support.Keeps;

@Keeps("every element, as OneList")
public class ArrayList<E> extends OneList<E> {
    public ArrayList() { }

    public ArrayList(Collection<? extends E> others) {
        addAll(others);
    }

    public ArrayList(int capacity) { }

    public void ensureCapacity(int capacity) { }

    public void trimToSize() { }
}
