package java.util.stream;

import boomer.support.Keeps;
import java.util.DoubleSummaryStatistics;
import java.util.OptionalDouble;
import java.util.PrimitiveIterator;
import java.util.Spliterator;
import java.util.function.BiConsumer;
import java.util.function.DoubleBinaryOperator;
import java.util.function.DoubleConsumer;
import java.util.function.DoubleFunction;
import java.util.function.DoublePredicate;
import java.util.function.DoubleSupplier;
import java.util.function.DoubleToIntFunction;
import java.util.function.DoubleToLongFunction;
import java.util.function.DoubleUnaryOperator;
import java.util.function.ObjDoubleConsumer;
import java.util.function.Supplier;

@Keeps("nothing; what is made is a OneNumbers")
public interface DoubleStream extends BaseStream<Double, DoubleStream> {
    DoubleStream filter(DoublePredicate filter);

    DoubleStream map(DoubleUnaryOperator made);

    <U> Stream<U> mapToObj(DoubleFunction<? extends U> made);

    IntStream mapToInt(DoubleToIntFunction made);

    LongStream mapToLong(DoubleToLongFunction made);

    DoubleStream flatMap(DoubleFunction<? extends DoubleStream> made);

    DoubleStream distinct();

    DoubleStream sorted();

    DoubleStream peek(DoubleConsumer action);

    DoubleStream limit(long count);

    DoubleStream skip(long count);

    DoubleStream takeWhile(DoublePredicate filter);

    DoubleStream dropWhile(DoublePredicate filter);

    void forEach(DoubleConsumer action);

    void forEachOrdered(DoubleConsumer action);

    double[] toArray();

    double reduce(double first, DoubleBinaryOperator both);

    OptionalDouble reduce(DoubleBinaryOperator both);

    <R> R collect(Supplier<R> made, ObjDoubleConsumer<R> next, BiConsumer<R, R> both);

    double sum();

    OptionalDouble min();

    OptionalDouble max();

    long count();

    OptionalDouble average();

    DoubleSummaryStatistics summaryStatistics();

    boolean anyMatch(DoublePredicate filter);

    boolean allMatch(DoublePredicate filter);

    boolean noneMatch(DoublePredicate filter);

    OptionalDouble findFirst();

    OptionalDouble findAny();

    Stream<Double> boxed();

    PrimitiveIterator.OfDouble iterator();

    Spliterator.OfDouble spliterator();

    DoubleStream sequential();

    DoubleStream parallel();

    static DoubleStream empty() {
        return new OneNumbers.OfDouble();
    }

    static DoubleStream of(double one) {
        return new OneNumbers.OfDouble();
    }

    static DoubleStream of(double... all) {
        return new OneNumbers.OfDouble();
    }

    static DoubleStream iterate(double seed, DoubleUnaryOperator next) {
        return of(next.applyAsDouble(seed));
    }

    static DoubleStream iterate(double seed, DoublePredicate isLeft, DoubleUnaryOperator next) {
        isLeft.test(seed);
        return of(next.applyAsDouble(seed));
    }

    static DoubleStream generate(DoubleSupplier made) {
        return of(made.getAsDouble());
    }

    static DoubleStream concat(DoubleStream a, DoubleStream b) {
        return a;
    }
}
