package java.util;

import boomer.support.Keeps;

@Keeps("every element, as OneList")
public class LinkedList<E> extends OneList<E> implements Deque<E> {
    public LinkedList() { }

    public LinkedList(Collection<? extends E> others) {
        addAll(others);
    }

    public void addFirst(E each) {
        element = each;
    }

    public void addLast(E each) {
        element = each;
    }

    public boolean offer(E each) {
        element = each;
        return true;
    }

    public boolean offerFirst(E each) {
        element = each;
        return true;
    }

    public boolean offerLast(E each) {
        element = each;
        return true;
    }

    public void push(E each) {
        element = each;
    }

    public E remove() {
        return some();
    }

    public E removeFirst() {
        return some();
    }

    public E removeLast() {
        return some();
    }

    public E getFirst() {
        return some();
    }

    public E getLast() {
        return some();
    }

    public E element() {
        return some();
    }

    public E pop() {
        return some();
    }

    public E poll() {
        return element;
    }

    public E pollFirst() {
        return element;
    }

    public E pollLast() {
        return element;
    }

    public E peek() {
        return element;
    }

    public E peekFirst() {
        return element;
    }

    public E peekLast() {
        return element;
    }

    public boolean removeFirstOccurrence(Object object) {
        return contains(object);
    }

    public boolean removeLastOccurrence(Object object) {
        return contains(object);
    }

    public Iterator<E> descendingIterator() {
        return iterator();
    }
}
