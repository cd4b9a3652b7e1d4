package java.util;

import boomer.support.Keeps;

@Keeps("nothing; of and copyOf make sets that can't be changed")
public interface Set<E> extends Collection<E> {
    @Override
    default Spliterator<E> spliterator() {
        return Spliterators.spliterator(this, 0);
    }

    @SuppressWarnings("unchecked")
    static <E> Set<E> of() {
        return Fixed.set((E[]) new Object[] {});
    }

    @SuppressWarnings("unchecked")
    static <E> Set<E> of(E e1) {
        return Fixed.set((E[]) new Object[] {e1});
    }

    @SuppressWarnings("unchecked")
    static <E> Set<E> of(E e1, E e2) {
        return Fixed.set((E[]) new Object[] {e1, e2});
    }

    @SuppressWarnings("unchecked")
    static <E> Set<E> of(E e1, E e2, E e3) {
        return Fixed.set((E[]) new Object[] {e1, e2, e3});
    }

    @SuppressWarnings("unchecked")
    static <E> Set<E> of(E e1, E e2, E e3, E e4) {
        return Fixed.set((E[]) new Object[] {e1, e2, e3, e4});
    }

    @SuppressWarnings("unchecked")
    static <E> Set<E> of(E e1, E e2, E e3, E e4, E e5) {
        return Fixed.set((E[]) new Object[] {e1, e2, e3, e4, e5});
    }

    @SuppressWarnings("unchecked")
    static <E> Set<E> of(E e1, E e2, E e3, E e4, E e5, E e6) {
        return Fixed.set((E[]) new Object[] {e1, e2, e3, e4, e5, e6});
    }

    @SuppressWarnings("unchecked")
    static <E> Set<E> of(E e1, E e2, E e3, E e4, E e5, E e6, E e7) {
        return Fixed.set((E[]) new Object[] {e1, e2, e3, e4, e5, e6, e7});
    }

    @SuppressWarnings("unchecked")
    static <E> Set<E> of(E e1, E e2, E e3, E e4, E e5, E e6, E e7, E e8) {
        return Fixed.set((E[]) new Object[] {e1, e2, e3, e4, e5, e6, e7, e8});
    }

    @SuppressWarnings("unchecked")
    static <E> Set<E> of(E e1, E e2, E e3, E e4, E e5, E e6, E e7, E e8, E e9) {
        return Fixed.set((E[]) new Object[] {e1, e2, e3, e4, e5, e6, e7, e8, e9});
    }

    @SuppressWarnings("unchecked")
    static <E> Set<E> of(E e1, E e2, E e3, E e4, E e5, E e6, E e7, E e8, E e9, E e10) {
        return Fixed.set((E[]) new Object[] {e1, e2, e3, e4, e5, e6, e7, e8, e9, e10});
    }

    @SafeVarargs
    @SuppressWarnings("varargs")
    static <E> Set<E> of(E... all) {
        return Fixed.set(all);
    }

    @SuppressWarnings("unchecked")
    static <E> Set<E> copyOf(Collection<? extends E> others) {
        return new Fixed.OfSet<>(new HashSet<>(others));
    }
}
