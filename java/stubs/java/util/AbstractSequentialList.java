package java.util;

import boomer.support.Keeps;

@Keeps("nothing; all goes by the iterator")
public abstract class AbstractSequentialList<E> extends AbstractList<E> {
    protected AbstractSequentialList() { }

    public abstract ListIterator<E> listIterator(int index);

    public E get(int index) {
        return listIterator(index).next();
    }

    public E set(int index, E each) {
        ListIterator<E> at = listIterator(index);
        E old = at.next();
        at.set(each);
        return old;
    }

    public void add(int index, E each) {
        listIterator(index).add(each);
    }

    public E remove(int index) {
        ListIterator<E> at = listIterator(index);
        E old = at.next();
        at.remove();
        return old;
    }
}
