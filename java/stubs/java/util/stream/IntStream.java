package java.util.stream;

import boomer.support.Keeps;
import java.util.IntSummaryStatistics;
import java.util.OptionalDouble;
import java.util.OptionalInt;
import java.util.PrimitiveIterator;
import java.util.Spliterator;
import java.util.function.BiConsumer;
import java.util.function.IntBinaryOperator;
import java.util.function.IntConsumer;
import java.util.function.IntFunction;
import java.util.function.IntPredicate;
import java.util.function.IntSupplier;
import java.util.function.IntToDoubleFunction;
import java.util.function.IntToLongFunction;
import java.util.function.IntUnaryOperator;
import java.util.function.ObjIntConsumer;
import java.util.function.Supplier;

@Keeps("nothing; what is made is a OneNumbers")
public interface IntStream extends BaseStream<Integer, IntStream> {
    IntStream filter(IntPredicate filter);

    IntStream map(IntUnaryOperator made);

    <U> Stream<U> mapToObj(IntFunction<? extends U> made);

    LongStream mapToLong(IntToLongFunction made);

    DoubleStream mapToDouble(IntToDoubleFunction made);

    IntStream flatMap(IntFunction<? extends IntStream> made);

    IntStream distinct();

    IntStream sorted();

    IntStream peek(IntConsumer action);

    IntStream limit(long count);

    IntStream skip(long count);

    IntStream takeWhile(IntPredicate filter);

    IntStream dropWhile(IntPredicate filter);

    void forEach(IntConsumer action);

    void forEachOrdered(IntConsumer action);

    int[] toArray();

    int reduce(int first, IntBinaryOperator both);

    OptionalInt reduce(IntBinaryOperator both);

    <R> R collect(Supplier<R> made, ObjIntConsumer<R> next, BiConsumer<R, R> both);

    int sum();

    OptionalInt min();

    OptionalInt max();

    long count();

    OptionalDouble average();

    IntSummaryStatistics summaryStatistics();

    boolean anyMatch(IntPredicate filter);

    boolean allMatch(IntPredicate filter);

    boolean noneMatch(IntPredicate filter);

    OptionalInt findFirst();

    OptionalInt findAny();

    DoubleStream asDoubleStream();

    LongStream asLongStream();

    Stream<Integer> boxed();

    PrimitiveIterator.OfInt iterator();

    Spliterator.OfInt spliterator();

    IntStream sequential();

    IntStream parallel();

    static IntStream empty() {
        return new OneNumbers();
    }

    static IntStream of(int one) {
        return new OneNumbers();
    }

    static IntStream of(int... all) {
        return new OneNumbers();
    }

    static IntStream iterate(int seed, IntUnaryOperator next) {
        return of(next.applyAsInt(seed));
    }

    static IntStream iterate(int seed, IntPredicate isLeft, IntUnaryOperator next) {
        isLeft.test(seed);
        return of(next.applyAsInt(seed));
    }

    static IntStream generate(IntSupplier made) {
        return of(made.getAsInt());
    }

    static IntStream concat(IntStream a, IntStream b) {
        return a;
    }

    static IntStream range(int from, int to) {
        return of(from);
    }

    static IntStream rangeClosed(int from, int to) {
        return of(from);
    }
}
