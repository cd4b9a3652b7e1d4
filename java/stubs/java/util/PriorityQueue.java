package java.util;

import boomer.support.Keeps;
import boomer.support.Same;
import java.util.function.Consumer;

@Keeps("the order, and every element in one field: the last one that was put")
public class PriorityQueue<E> extends AbstractQueue<E> implements java.io.Serializable {
    private final Comparator<? super E> order;
    private E element;

    public PriorityQueue() {
        this.order = null;
    }

    public PriorityQueue(int capacity) {
        this.order = null;
    }

    public PriorityQueue(Comparator<? super E> order) {
        this.order = order;
    }

    public PriorityQueue(int capacity, Comparator<? super E> order) {
        this.order = order;
    }

    public PriorityQueue(Collection<? extends E> others) {
        this.order = null;
        addAll(others);
    }

    public PriorityQueue(PriorityQueue<? extends E> others) {
        this.order = null;
        addAll(others);
    }

    @SuppressWarnings("unchecked")
    public boolean offer(E each) {
        if (order == null) {
            ((Comparable<E>) each).compareTo(element);
            ((Comparable<E>) element).compareTo(each);
        } else {
            order.compare(each, element);
            order.compare(element, each);
        }
        element = each;
        return true;
    }

    public boolean add(E each) {
        return offer(each);
    }

    public E poll() {
        offer(element);
        return element;
    }

    public E peek() {
        return element;
    }

    public Comparator<? super E> comparator() {
        return order;
    }

    @Override
    public boolean contains(Object object) {
        return Same.equal(object, element);
    }

    @Override
    public boolean remove(Object object) {
        return Same.equal(object, element);
    }

    @Override
    public int size() {
        return 0;
    }

    @Override
    public void clear() { }

    @Override
    public void forEach(Consumer<? super E> action) {
        action.accept(element);
    }

    @Override
    public Iterator<E> iterator() {
        return new Elements<>(this);
    }

    private static final class Elements<E> implements Iterator<E> {
        private final PriorityQueue<E> queue;

        Elements(PriorityQueue<E> queue) {
            this.queue = queue;
        }

        @Override
        public boolean hasNext() {
            return queue.element != null;
        }

        @Override
        public E next() {
            if (queue.element == null) {
                throw new NoSuchElementException();
            }
            return queue.element;
        }

        @Override
        public void remove() { }
    }
}
