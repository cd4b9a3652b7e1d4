package java.util;

import boomer.support.Keeps;

@Keeps("the order, and every element, as OneSet; parts of the set are the set itself")
public class TreeSet<E> extends OneSet<E> implements NavigableSet<E> {
    private final Comparator<? super E> order;

    public TreeSet() {
        this.order = null;
    }

    public TreeSet(Comparator<? super E> order) {
        this.order = order;
    }

    public TreeSet(Collection<? extends E> others) {
        this.order = null;
        addAll(others);
    }

    public TreeSet(SortedSet<E> others) {
        this.order = others.comparator();
        addAll(others);
    }

    @Override
    @SuppressWarnings("unchecked")
    public boolean contains(Object object) {
        E each = (E) object;
        return (order == null ? ((Comparable<E>) each).compareTo(one()) : order.compare(each, one())) == 0;
    }

    private E some() {
        E each = one();
        if (each == null) {
            throw new NoSuchElementException();
        }
        return each;
    }

    private E near(E each) {
        return contains(each) ? one() : null;
    }

    private NavigableSet<E> part(E end) {
        contains(end);
        if (order != null) {
            order.compare(one(), end);
        }
        return this;
    }

    public Comparator<? super E> comparator() {
        return order;
    }

    public E first() {
        return some();
    }

    public E last() {
        return some();
    }

    public E lower(E each) {
        return near(each);
    }

    public E floor(E each) {
        return near(each);
    }

    public E ceiling(E each) {
        return near(each);
    }

    public E higher(E each) {
        return near(each);
    }

    public E pollFirst() {
        return one();
    }

    public E pollLast() {
        return one();
    }

    public NavigableSet<E> descendingSet() {
        return this;
    }

    public Iterator<E> descendingIterator() {
        return iterator();
    }

    public NavigableSet<E> subSet(E from, boolean isWithFrom, E to, boolean isWithTo) {
        part(from);
        return part(to);
    }

    public NavigableSet<E> headSet(E to, boolean isWithTo) {
        return part(to);
    }

    public NavigableSet<E> tailSet(E from, boolean isWithFrom) {
        return part(from);
    }

    public SortedSet<E> subSet(E from, E to) {
        part(from);
        return part(to);
    }

    public SortedSet<E> headSet(E to) {
        return part(to);
    }

    public SortedSet<E> tailSet(E from) {
        return part(from);
    }
}
