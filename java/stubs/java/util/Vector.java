package java.util;

import boomer.support.Keeps;

@Keeps("every element, as OneList")
public class Vector<E> extends OneList<E> {
    public Vector() { }

    public Vector(Collection<? extends E> others) {
        addAll(others);
    }

    public Vector(int capacity) { }

    public void addElement(E each) {
        element = each;
    }

    public E elementAt(int index) {
        return get(index);
    }

    public E firstElement() {
        return some();
    }

    public E lastElement() {
        return some();
    }
}
