package java.util;

import boomer.support.Keeps;

@Keeps("nothing; all goes by offer, poll and peek")
public abstract class AbstractQueue<E> extends AbstractCollection<E> implements Queue<E> {
    protected AbstractQueue() { }

    public boolean add(E each) {
        if (!offer(each)) {
            throw new IllegalStateException();
        }
        return true;
    }

    public E remove() {
        E each = poll();
        if (each == null) {
            throw new NoSuchElementException();
        }
        return each;
    }

    public E element() {
        E each = peek();
        if (each == null) {
            throw new NoSuchElementException();
        }
        return each;
    }

    public void clear() {
        poll();
    }
}
