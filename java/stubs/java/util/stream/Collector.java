package java.util.stream;

import boomer.support.Keeps;
import java.util.Set;
import java.util.function.BiConsumer;
import java.util.function.BinaryOperator;
import java.util.function.Function;
import java.util.function.Supplier;

@Keeps("the functions that it is made of")
public interface Collector<T, A, R> {
    Supplier<A> supplier();

    BiConsumer<A, T> accumulator();

    BinaryOperator<A> combiner();

    Function<A, R> finisher();

    Set<Characteristics> characteristics();

    static <T, R> Collector<T, R, R> of(Supplier<R> made, BiConsumer<R, T> next, BinaryOperator<R> both,
            Characteristics... all) {
        return new OneCollector<>(made, next, both, result -> result);
    }

    static <T, A, R> Collector<T, A, R> of(Supplier<A> made, BiConsumer<A, T> next, BinaryOperator<A> both,
            Function<A, R> end, Characteristics... all) {
        return new OneCollector<>(made, next, both, end);
    }

    /** What may be done with a collector. */
    final class Characteristics {
        public static final Characteristics CONCURRENT = new Characteristics();
        public static final Characteristics UNORDERED = CONCURRENT;
        public static final Characteristics IDENTITY_FINISH = CONCURRENT;
    }
}
