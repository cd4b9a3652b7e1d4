package java.util;

import boomer.support.Keeps;
import java.util.function.UnaryOperator;

@Keeps("nothing; of and copyOf make lists that can't be changed")
public interface List<E> extends Collection<E> {
    boolean addAll(int index, Collection<? extends E> others);

    default void replaceAll(UnaryOperator<E> operator) {
        ListIterator<E> each = listIterator();
        while (each.hasNext()) {
            each.set(operator.apply(each.next()));
        }
    }

    @SuppressWarnings("unchecked")
    default void sort(Comparator<? super E> order) {
        Object[] all = toArray();
        Arrays.sort(all, (Comparator<Object>) order);
        ListIterator<E> each = listIterator();
        for (Object one : all) {
            each.next();
            each.set((E) one);
        }
    }

    E get(int index);

    E set(int index, E each);

    void add(int index, E each);

    E remove(int index);

    int indexOf(Object object);

    int lastIndexOf(Object object);

    ListIterator<E> listIterator();

    ListIterator<E> listIterator(int index);

    List<E> subList(int from, int to);

    @Override
    default Spliterator<E> spliterator() {
        return Spliterators.spliterator(this, 0);
    }

    @SuppressWarnings("unchecked")
    static <E> List<E> of() {
        return Fixed.list((E[]) new Object[] {});
    }

    @SuppressWarnings("unchecked")
    static <E> List<E> of(E e1) {
        return Fixed.list((E[]) new Object[] {e1});
    }

    @SuppressWarnings("unchecked")
    static <E> List<E> of(E e1, E e2) {
        return Fixed.list((E[]) new Object[] {e1, e2});
    }

    @SuppressWarnings("unchecked")
    static <E> List<E> of(E e1, E e2, E e3) {
        return Fixed.list((E[]) new Object[] {e1, e2, e3});
    }

    @SuppressWarnings("unchecked")
    static <E> List<E> of(E e1, E e2, E e3, E e4) {
        return Fixed.list((E[]) new Object[] {e1, e2, e3, e4});
    }

    @SuppressWarnings("unchecked")
    static <E> List<E> of(E e1, E e2, E e3, E e4, E e5) {
        return Fixed.list((E[]) new Object[] {e1, e2, e3, e4, e5});
    }

    @SuppressWarnings("unchecked")
    static <E> List<E> of(E e1, E e2, E e3, E e4, E e5, E e6) {
        return Fixed.list((E[]) new Object[] {e1, e2, e3, e4, e5, e6});
    }

    @SuppressWarnings("unchecked")
    static <E> List<E> of(E e1, E e2, E e3, E e4, E e5, E e6, E e7) {
        return Fixed.list((E[]) new Object[] {e1, e2, e3, e4, e5, e6, e7});
    }

    @SuppressWarnings("unchecked")
    static <E> List<E> of(E e1, E e2, E e3, E e4, E e5, E e6, E e7, E e8) {
        return Fixed.list((E[]) new Object[] {e1, e2, e3, e4, e5, e6, e7, e8});
    }

    @SuppressWarnings("unchecked")
    static <E> List<E> of(E e1, E e2, E e3, E e4, E e5, E e6, E e7, E e8, E e9) {
        return Fixed.list((E[]) new Object[] {e1, e2, e3, e4, e5, e6, e7, e8, e9});
    }

    @SuppressWarnings("unchecked")
    static <E> List<E> of(E e1, E e2, E e3, E e4, E e5, E e6, E e7, E e8, E e9, E e10) {
        return Fixed.list((E[]) new Object[] {e1, e2, e3, e4, e5, e6, e7, e8, e9, e10});
    }

    @SafeVarargs
    @SuppressWarnings("varargs")
    static <E> List<E> of(E... all) {
        return Fixed.list(all);
    }

    @SuppressWarnings("unchecked")
    static <E> List<E> copyOf(Collection<? extends E> others) {
        return Fixed.list((E[]) others.toArray());
    }
}
