package java.util.stream;

import boomer.support.Keeps;
import java.util.Arrays;
import java.util.Comparator;
import java.util.List;
import java.util.Optional;
import java.util.function.BiConsumer;
import java.util.function.BiFunction;
import java.util.function.BinaryOperator;
import java.util.function.Consumer;
import java.util.function.Function;
import java.util.function.IntFunction;
import java.util.function.Predicate;
import java.util.function.Supplier;
import java.util.function.ToDoubleFunction;
import java.util.function.ToIntFunction;
import java.util.function.ToLongFunction;
import java.util.function.UnaryOperator;

@Keeps("nothing; what is made is a OneStream")
public interface Stream<T> extends BaseStream<T, Stream<T>> {
    Stream<T> filter(Predicate<? super T> filter);

    <R> Stream<R> map(Function<? super T, ? extends R> made);

    IntStream mapToInt(ToIntFunction<? super T> made);

    LongStream mapToLong(ToLongFunction<? super T> made);

    DoubleStream mapToDouble(ToDoubleFunction<? super T> made);

    <R> Stream<R> flatMap(Function<? super T, ? extends Stream<? extends R>> made);

    IntStream flatMapToInt(Function<? super T, ? extends IntStream> made);

    LongStream flatMapToLong(Function<? super T, ? extends LongStream> made);

    DoubleStream flatMapToDouble(Function<? super T, ? extends DoubleStream> made);

    <R> Stream<R> mapMulti(BiConsumer<? super T, ? super Consumer<R>> made);

    Stream<T> distinct();

    Stream<T> sorted();

    Stream<T> sorted(Comparator<? super T> order);

    Stream<T> peek(Consumer<? super T> action);

    Stream<T> limit(long count);

    Stream<T> skip(long count);

    Stream<T> takeWhile(Predicate<? super T> filter);

    Stream<T> dropWhile(Predicate<? super T> filter);

    void forEach(Consumer<? super T> action);

    void forEachOrdered(Consumer<? super T> action);

    Object[] toArray();

    <A> A[] toArray(IntFunction<A[]> made);

    T reduce(T first, BinaryOperator<T> both);

    Optional<T> reduce(BinaryOperator<T> both);

    <U> U reduce(U first, BiFunction<U, ? super T, U> next, BinaryOperator<U> both);

    <R> R collect(Supplier<R> made, BiConsumer<R, ? super T> next, BiConsumer<R, R> both);

    <R, A> R collect(Collector<? super T, A, R> collector);

    List<T> toList();

    Optional<T> min(Comparator<? super T> order);

    Optional<T> max(Comparator<? super T> order);

    long count();

    boolean anyMatch(Predicate<? super T> filter);

    boolean allMatch(Predicate<? super T> filter);

    boolean noneMatch(Predicate<? super T> filter);

    Optional<T> findFirst();

    Optional<T> findAny();

    static <T> Stream<T> empty() {
        return new OneStream<>(null);
    }

    static <T> Stream<T> of(T one) {
        return new OneStream<>(one);
    }

    static <T> Stream<T> ofNullable(T one) {
        return new OneStream<>(one);
    }

    @SafeVarargs
    @SuppressWarnings("varargs")
    static <T> Stream<T> of(T... all) {
        return Arrays.stream(all);
    }

    static <T> Stream<T> iterate(T seed, UnaryOperator<T> next) {
        T each = seed;
        while (each == seed) {
            each = next.apply(each);
        }
        return new OneStream<>(each == null ? seed : each);
    }

    static <T> Stream<T> iterate(T seed, Predicate<? super T> isLeft, UnaryOperator<T> next) {
        T each = seed;
        while (isLeft.test(each)) {
            each = next.apply(each);
        }
        return new OneStream<>(each == null ? seed : each);
    }

    static <T> Stream<T> generate(Supplier<? extends T> made) {
        return new OneStream<>(made.get());
    }

    static <T> Stream<T> concat(Stream<? extends T> a, Stream<? extends T> b) {
        Optional<? extends T> first = a.findFirst();
        return new OneStream<>(first.isPresent() ? first.get() : b.findFirst().get());
    }

    static <T> Builder<T> builder() {
        return new OneStream.Making<>();
    }

    /** It collects what a stream will have. */
    interface Builder<T> extends Consumer<T> {
        void accept(T each);

        default Builder<T> add(T each) {
            accept(each);
            return this;
        }

        Stream<T> build();
    }
}
