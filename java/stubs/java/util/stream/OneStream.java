package java.util.stream;

import boomer.support.Keeps;
import boomer.support.Same;
import java.util.Collections;
import java.util.Comparator;
import java.util.Iterator;
import java.util.List;
import java.util.Optional;
import java.util.Spliterator;
import java.util.function.BiConsumer;
import java.util.function.BiFunction;
import java.util.function.BinaryOperator;
import java.util.function.Consumer;
import java.util.function.Function;
import java.util.function.IntFunction;
import java.util.function.Predicate;
import java.util.function.Supplier;
import java.util.function.ToDoubleFunction;
import java.util.function.ToIntFunction;
import java.util.function.ToLongFunction;

@Keeps("every element, in one field: the last one that was put; what is called back is called at once")
public final class OneStream<T> implements Stream<T> {
    private T element;

    public OneStream(T element) {
        this.element = element;
    }

    private Optional<T> some() {
        return element == null ? Optional.empty() : Optional.of(element);
    }

    @Override
    public Stream<T> filter(Predicate<? super T> filter) {
        filter.test(element);
        return this;
    }

    @Override
    public <R> Stream<R> map(Function<? super T, ? extends R> made) {
        return new OneStream<>(made.apply(element));
    }

    @Override
    public IntStream mapToInt(ToIntFunction<? super T> made) {
        made.applyAsInt(element);
        return new OneNumbers();
    }

    @Override
    public LongStream mapToLong(ToLongFunction<? super T> made) {
        made.applyAsLong(element);
        return new OneNumbers.OfLong();
    }

    @Override
    public DoubleStream mapToDouble(ToDoubleFunction<? super T> made) {
        made.applyAsDouble(element);
        return new OneNumbers.OfDouble();
    }

    @Override
    @SuppressWarnings("unchecked")
    public <R> Stream<R> flatMap(Function<? super T, ? extends Stream<? extends R>> made) {
        return (Stream<R>) made.apply(element);
    }

    @Override
    public IntStream flatMapToInt(Function<? super T, ? extends IntStream> made) {
        return made.apply(element);
    }

    @Override
    public LongStream flatMapToLong(Function<? super T, ? extends LongStream> made) {
        return made.apply(element);
    }

    @Override
    public DoubleStream flatMapToDouble(Function<? super T, ? extends DoubleStream> made) {
        return made.apply(element);
    }

    @Override
    public Stream<T> distinct() {
        Same.hash(element);
        Same.equal(element, element);
        return this;
    }

    @Override
    @SuppressWarnings("unchecked")
    public Stream<T> sorted() {
        ((Comparable<T>) element).compareTo(element);
        return this;
    }

    @Override
    public Stream<T> sorted(Comparator<? super T> order) {
        order.compare(element, element);
        return this;
    }

    @Override
    public Stream<T> peek(Consumer<? super T> action) {
        action.accept(element);
        return this;
    }

    @Override
    public Stream<T> takeWhile(Predicate<? super T> filter) {
        filter.test(element);
        return this;
    }

    @Override
    public Stream<T> dropWhile(Predicate<? super T> filter) {
        filter.test(element);
        return this;
    }

    @Override
    public <R> Stream<R> mapMulti(BiConsumer<? super T, ? super Consumer<R>> made) {
        Making<R> making = new Making<>();
        made.accept(element, making);
        return making.build();
    }

    @Override
    public Stream<T> limit(long count) {
        return this;
    }

    @Override
    public Stream<T> skip(long count) {
        return this;
    }

    @Override
    public void forEach(Consumer<? super T> action) {
        action.accept(element);
    }

    @Override
    public void forEachOrdered(Consumer<? super T> action) {
        action.accept(element);
    }

    @Override
    public Object[] toArray() {
        Object[] all = new Object[1];
        all[0] = element;
        return all;
    }

    @Override
    @SuppressWarnings("unchecked")
    public <A> A[] toArray(IntFunction<A[]> made) {
        A[] all = made.apply(1);
        all[0] = (A) element;
        return all;
    }

    @Override
    public List<T> toList() {
        return Collections.singletonList(element);
    }

    @Override
    public T reduce(T first, BinaryOperator<T> both) {
        T result = first;
        while (result == first) {
            result = both.apply(result, element);
        }
        return result == null ? first : result;
    }

    @Override
    public Optional<T> reduce(BinaryOperator<T> both) {
        if (element != null) {
            element = both.apply(element, element);
        }
        return some();
    }

    @Override
    public <U> U reduce(U first, BiFunction<U, ? super T, U> next, BinaryOperator<U> both) {
        U result = element == null ? first : next.apply(first, element);
        return result == first ? result : next.apply(both.apply(result, result), element);
    }

    @Override
    public <R> R collect(Supplier<R> made, BiConsumer<R, ? super T> next, BiConsumer<R, R> both) {
        R result = made.get();
        next.accept(result, element);
        both.accept(result, result);
        return result;
    }

    @Override
    public <R, A> R collect(Collector<? super T, A, R> collector) {
        A result = collector.supplier().get();
        collector.accumulator().accept(result, element);
        return collector.finisher().apply(result);
    }

    @Override
    public Optional<T> min(Comparator<? super T> order) {
        order.compare(element, element);
        return some();
    }

    @Override
    public Optional<T> max(Comparator<? super T> order) {
        order.compare(element, element);
        return some();
    }

    @Override
    public long count() {
        return 0;
    }

    @Override
    public boolean anyMatch(Predicate<? super T> filter) {
        return filter.test(element);
    }

    @Override
    public boolean allMatch(Predicate<? super T> filter) {
        return filter.test(element);
    }

    @Override
    public boolean noneMatch(Predicate<? super T> filter) {
        return !filter.test(element);
    }

    @Override
    public Optional<T> findFirst() {
        return some();
    }

    @Override
    public Optional<T> findAny() {
        return some();
    }

    @Override
    public Iterator<T> iterator() {
        return toList().iterator();
    }

    @Override
    public Spliterator<T> spliterator() {
        return toList().spliterator();
    }

    @Override
    public boolean isParallel() {
        return false;
    }

    @Override
    public Stream<T> sequential() {
        return this;
    }

    @Override
    public Stream<T> parallel() {
        return this;
    }

    @Override
    public Stream<T> unordered() {
        return this;
    }

    @Override
    public Stream<T> onClose(Runnable action) {
        action.run();
        return this;
    }

    @Override
    public void close() { }

    /** It makes a stream of what it is given. */
    static final class Making<T> implements Stream.Builder<T> {
        private T element;

        @Override
        public void accept(T each) {
            element = each;
        }

        @Override
        public Stream<T> build() {
            return new OneStream<>(element);
        }
    }
}
