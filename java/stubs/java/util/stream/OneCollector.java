package java.util.stream;

import boomer.support.Keeps;
import java.util.Set;
import java.util.function.BiConsumer;
import java.util.function.BinaryOperator;
import java.util.function.Function;
import java.util.function.Supplier;

@Keeps(value = "the functions that it is made of", covers = "runs")
final class OneCollector<T, A, R> implements Collector<T, A, R> {
    private final Supplier<A> made;
    private final BiConsumer<A, T> next;
    private final BinaryOperator<A> both;
    private final Function<A, R> end;

    OneCollector(Supplier<A> made, BiConsumer<A, T> next, BinaryOperator<A> both, Function<A, R> end) {
        this.made = made;
        this.next = next;
        this.both = both;
        this.end = end;
    }

    @Override
    public Supplier<A> supplier() {
        return made;
    }

    @Override
    public BiConsumer<A, T> accumulator() {
        return next;
    }

    @Override
    public BinaryOperator<A> combiner() {
        return both;
    }

    @Override
    public Function<A, R> finisher() {
        return end;
    }

    @Override
    public Set<Characteristics> characteristics() {
        return Set.of();
    }
}
