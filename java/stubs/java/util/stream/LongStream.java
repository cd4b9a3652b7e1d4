package java.util.stream;

import boomer.support.Keeps;
import java.util.LongSummaryStatistics;
import java.util.OptionalDouble;
import java.util.OptionalLong;
import java.util.PrimitiveIterator;
import java.util.Spliterator;
import java.util.function.BiConsumer;
import java.util.function.LongBinaryOperator;
import java.util.function.LongConsumer;
import java.util.function.LongFunction;
import java.util.function.LongPredicate;
import java.util.function.LongSupplier;
import java.util.function.LongToDoubleFunction;
import java.util.function.LongToIntFunction;
import java.util.function.LongUnaryOperator;
import java.util.function.ObjLongConsumer;
import java.util.function.Supplier;

@Keeps("nothing; what is made is a OneNumbers")
public interface LongStream extends BaseStream<Long, LongStream> {
    LongStream filter(LongPredicate filter);

    LongStream map(LongUnaryOperator made);

    <U> Stream<U> mapToObj(LongFunction<? extends U> made);

    IntStream mapToInt(LongToIntFunction made);

    DoubleStream mapToDouble(LongToDoubleFunction made);

    LongStream flatMap(LongFunction<? extends LongStream> made);

    LongStream distinct();

    LongStream sorted();

    LongStream peek(LongConsumer action);

    LongStream limit(long count);

    LongStream skip(long count);

    LongStream takeWhile(LongPredicate filter);

    LongStream dropWhile(LongPredicate filter);

    void forEach(LongConsumer action);

    void forEachOrdered(LongConsumer action);

    long[] toArray();

    long reduce(long first, LongBinaryOperator both);

    OptionalLong reduce(LongBinaryOperator both);

    <R> R collect(Supplier<R> made, ObjLongConsumer<R> next, BiConsumer<R, R> both);

    long sum();

    OptionalLong min();

    OptionalLong max();

    long count();

    OptionalDouble average();

    LongSummaryStatistics summaryStatistics();

    boolean anyMatch(LongPredicate filter);

    boolean allMatch(LongPredicate filter);

    boolean noneMatch(LongPredicate filter);

    OptionalLong findFirst();

    OptionalLong findAny();

    DoubleStream asDoubleStream();

    Stream<Long> boxed();

    PrimitiveIterator.OfLong iterator();

    Spliterator.OfLong spliterator();

    LongStream sequential();

    LongStream parallel();

    static LongStream empty() {
        return new OneNumbers.OfLong();
    }

    static LongStream of(long one) {
        return new OneNumbers.OfLong();
    }

    static LongStream of(long... all) {
        return new OneNumbers.OfLong();
    }

    static LongStream iterate(long seed, LongUnaryOperator next) {
        return of(next.applyAsLong(seed));
    }

    static LongStream iterate(long seed, LongPredicate isLeft, LongUnaryOperator next) {
        isLeft.test(seed);
        return of(next.applyAsLong(seed));
    }

    static LongStream generate(LongSupplier made) {
        return of(made.getAsLong());
    }

    static LongStream concat(LongStream a, LongStream b) {
        return a;
    }

    static LongStream range(long from, long to) {
        return of(from);
    }

    static LongStream rangeClosed(long from, long to) {
        return of(from);
    }
}
