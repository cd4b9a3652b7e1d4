package java.util.stream;

import boomer.support.Keeps;
import java.util.DoubleSummaryStatistics;
import java.util.IntSummaryStatistics;
import java.util.LongSummaryStatistics;
import java.util.OptionalDouble;
import java.util.OptionalInt;
import java.util.OptionalLong;
import java.util.PrimitiveIterator;
import java.util.Spliterator;
import java.util.function.BiConsumer;
import java.util.function.DoubleBinaryOperator;
import java.util.function.DoubleConsumer;
import java.util.function.DoubleFunction;
import java.util.function.DoublePredicate;
import java.util.function.DoubleSupplier;
import java.util.function.DoubleToIntFunction;
import java.util.function.DoubleToLongFunction;
import java.util.function.DoubleUnaryOperator;
import java.util.function.IntBinaryOperator;
import java.util.function.IntConsumer;
import java.util.function.IntFunction;
import java.util.function.IntPredicate;
import java.util.function.IntSupplier;
import java.util.function.IntToDoubleFunction;
import java.util.function.IntToLongFunction;
import java.util.function.IntUnaryOperator;
import java.util.function.LongBinaryOperator;
import java.util.function.LongConsumer;
import java.util.function.LongFunction;
import java.util.function.LongPredicate;
import java.util.function.LongSupplier;
import java.util.function.LongToDoubleFunction;
import java.util.function.LongToIntFunction;
import java.util.function.LongUnaryOperator;
import java.util.function.ObjDoubleConsumer;
import java.util.function.ObjIntConsumer;
import java.util.function.ObjLongConsumer;
import java.util.function.Supplier;

/** A stream of numbers, of which nothing is known. */
@Keeps(value = "nothing; what is called back is called at once", covers = "answers")
final class OneNumbers implements IntStream {
    @Override
    public IntStream filter(IntPredicate filter) {
        filter.test(0);
        return this;
    }

    @Override
    public IntStream map(IntUnaryOperator made) {
        made.applyAsInt(0);
        return this;
    }

    @Override
    public <U> Stream<U> mapToObj(IntFunction<? extends U> made) {
        return new OneStream<>(made.apply(0));
    }

    @Override
    public LongStream mapToLong(IntToLongFunction made) {
        made.applyAsLong(0);
        return new OfLong();
    }

    @Override
    public DoubleStream mapToDouble(IntToDoubleFunction made) {
        made.applyAsDouble(0);
        return new OfDouble();
    }

    @Override
    public IntStream flatMap(IntFunction<? extends IntStream> made) {
        return made.apply(0);
    }

    @Override
    public IntStream distinct() {
        return this;
    }

    @Override
    public IntStream sorted() {
        return this;
    }

    @Override
    public IntStream peek(IntConsumer action) {
        action.accept(0);
        return this;
    }

    @Override
    public IntStream limit(long count) {
        return this;
    }

    @Override
    public IntStream skip(long count) {
        return this;
    }

    @Override
    public IntStream takeWhile(IntPredicate filter) {
        return filter(filter);
    }

    @Override
    public IntStream dropWhile(IntPredicate filter) {
        return filter(filter);
    }

    @Override
    public void forEach(IntConsumer action) {
        action.accept(0);
    }

    @Override
    public void forEachOrdered(IntConsumer action) {
        action.accept(0);
    }

    @Override
    public int[] toArray() {
        return new int[1];
    }

    @Override
    public int reduce(int first, IntBinaryOperator both) {
        return both.applyAsInt(first, 0);
    }

    @Override
    public OptionalInt reduce(IntBinaryOperator both) {
        return OptionalInt.of(both.applyAsInt(0, 0));
    }

    @Override
    public <R> R collect(Supplier<R> made, ObjIntConsumer<R> next, BiConsumer<R, R> both) {
        R result = made.get();
        next.accept(result, 0);
        both.accept(result, result);
        return result;
    }

    @Override
    public int sum() {
        return 0;
    }

    @Override
    public OptionalInt min() {
        return OptionalInt.of(0);
    }

    @Override
    public OptionalInt max() {
        return OptionalInt.of(0);
    }

    @Override
    public OptionalInt findFirst() {
        return OptionalInt.of(0);
    }

    @Override
    public OptionalInt findAny() {
        return OptionalInt.of(0);
    }

    @Override
    public long count() {
        return 0;
    }

    @Override
    public OptionalDouble average() {
        return OptionalDouble.of(0);
    }

    @Override
    public IntSummaryStatistics summaryStatistics() {
        return new IntSummaryStatistics();
    }

    @Override
    public boolean anyMatch(IntPredicate filter) {
        return filter.test(0);
    }

    @Override
    public boolean allMatch(IntPredicate filter) {
        return filter.test(0);
    }

    @Override
    public boolean noneMatch(IntPredicate filter) {
        return filter.test(0);
    }

    @Override
    public DoubleStream asDoubleStream() {
        return new OfDouble();
    }

    @Override
    public LongStream asLongStream() {
        return new OfLong();
    }

    @Override
    public Stream<Integer> boxed() {
        return new OneStream<>(Integer.valueOf(0));
    }

    @Override
    public PrimitiveIterator.OfInt iterator() {
        return new EachInt();
    }

    @Override
    public Spliterator.OfInt spliterator() {
        return java.util.Spliterators.emptyIntSpliterator();
    }

    @Override
    public boolean isParallel() {
        return false;
    }

    @Override
    public IntStream sequential() {
        return this;
    }

    @Override
    public IntStream parallel() {
        return this;
    }

    @Override
    public IntStream unordered() {
        return this;
    }

    @Override
    public IntStream onClose(Runnable action) {
        action.run();
        return this;
    }

    @Override
    public void close() {
        return;
    }

    /** The same for another kind of numbers. */
    static final class OfLong implements LongStream {
        @Override
        public LongStream filter(LongPredicate filter) {
            filter.test(0);
            return this;
        }

        @Override
        public LongStream map(LongUnaryOperator made) {
            made.applyAsLong(0);
            return this;
        }

        @Override
        public <U> Stream<U> mapToObj(LongFunction<? extends U> made) {
            return new OneStream<>(made.apply(0));
        }

        @Override
        public IntStream mapToInt(LongToIntFunction made) {
            made.applyAsInt(0);
            return new OneNumbers();
        }

        @Override
        public DoubleStream mapToDouble(LongToDoubleFunction made) {
            made.applyAsDouble(0);
            return new OfDouble();
        }

        @Override
        public LongStream flatMap(LongFunction<? extends LongStream> made) {
            return made.apply(0);
        }

        @Override
        public LongStream distinct() {
            return this;
        }

        @Override
        public LongStream sorted() {
            return this;
        }

        @Override
        public LongStream peek(LongConsumer action) {
            action.accept(0);
            return this;
        }

        @Override
        public LongStream limit(long count) {
            return this;
        }

        @Override
        public LongStream skip(long count) {
            return this;
        }

        @Override
        public LongStream takeWhile(LongPredicate filter) {
            return filter(filter);
        }

        @Override
        public LongStream dropWhile(LongPredicate filter) {
            return filter(filter);
        }

        @Override
        public void forEach(LongConsumer action) {
            action.accept(0);
        }

        @Override
        public void forEachOrdered(LongConsumer action) {
            action.accept(0);
        }

        @Override
        public long[] toArray() {
            return new long[1];
        }

        @Override
        public long reduce(long first, LongBinaryOperator both) {
            return both.applyAsLong(first, 0);
        }

        @Override
        public OptionalLong reduce(LongBinaryOperator both) {
            return OptionalLong.of(both.applyAsLong(0, 0));
        }

        @Override
        public <R> R collect(Supplier<R> made, ObjLongConsumer<R> next, BiConsumer<R, R> both) {
            R result = made.get();
            next.accept(result, 0);
            both.accept(result, result);
            return result;
        }

        @Override
        public long sum() {
            return 0;
        }

        @Override
        public OptionalLong min() {
            return OptionalLong.of(0);
        }

        @Override
        public OptionalLong max() {
            return OptionalLong.of(0);
        }

        @Override
        public OptionalLong findFirst() {
            return OptionalLong.of(0);
        }

        @Override
        public OptionalLong findAny() {
            return OptionalLong.of(0);
        }

        @Override
        public long count() {
            return 0;
        }

        @Override
        public OptionalDouble average() {
            return OptionalDouble.of(0);
        }

        @Override
        public LongSummaryStatistics summaryStatistics() {
            return new LongSummaryStatistics();
        }

        @Override
        public boolean anyMatch(LongPredicate filter) {
            return filter.test(0);
        }

        @Override
        public boolean allMatch(LongPredicate filter) {
            return filter.test(0);
        }

        @Override
        public boolean noneMatch(LongPredicate filter) {
            return filter.test(0);
        }

        @Override
        public DoubleStream asDoubleStream() {
            return new OfDouble();
        }

        @Override
        public Stream<Long> boxed() {
            return new OneStream<>(Long.valueOf(0));
        }

        @Override
        public PrimitiveIterator.OfLong iterator() {
            return new EachLong();
        }

        @Override
        public Spliterator.OfLong spliterator() {
            return java.util.Spliterators.emptyLongSpliterator();
        }

        @Override
        public boolean isParallel() {
            return false;
        }

        @Override
        public LongStream sequential() {
            return this;
        }

        @Override
        public LongStream parallel() {
            return this;
        }

        @Override
        public LongStream unordered() {
            return this;
        }

        @Override
        public LongStream onClose(Runnable action) {
            action.run();
            return this;
        }

        @Override
        public void close() {
            return;
        }
    }

    /** The same for another kind of numbers. */
    static final class OfDouble implements DoubleStream {
        @Override
        public DoubleStream filter(DoublePredicate filter) {
            filter.test(0);
            return this;
        }

        @Override
        public DoubleStream map(DoubleUnaryOperator made) {
            made.applyAsDouble(0);
            return this;
        }

        @Override
        public <U> Stream<U> mapToObj(DoubleFunction<? extends U> made) {
            return new OneStream<>(made.apply(0));
        }

        @Override
        public IntStream mapToInt(DoubleToIntFunction made) {
            made.applyAsInt(0);
            return new OneNumbers();
        }

        @Override
        public LongStream mapToLong(DoubleToLongFunction made) {
            made.applyAsLong(0);
            return new OfLong();
        }

        @Override
        public DoubleStream flatMap(DoubleFunction<? extends DoubleStream> made) {
            return made.apply(0);
        }

        @Override
        public DoubleStream distinct() {
            return this;
        }

        @Override
        public DoubleStream sorted() {
            return this;
        }

        @Override
        public DoubleStream peek(DoubleConsumer action) {
            action.accept(0);
            return this;
        }

        @Override
        public DoubleStream limit(long count) {
            return this;
        }

        @Override
        public DoubleStream skip(long count) {
            return this;
        }

        @Override
        public DoubleStream takeWhile(DoublePredicate filter) {
            return filter(filter);
        }

        @Override
        public DoubleStream dropWhile(DoublePredicate filter) {
            return filter(filter);
        }

        @Override
        public void forEach(DoubleConsumer action) {
            action.accept(0);
        }

        @Override
        public void forEachOrdered(DoubleConsumer action) {
            action.accept(0);
        }

        @Override
        public double[] toArray() {
            return new double[1];
        }

        @Override
        public double reduce(double first, DoubleBinaryOperator both) {
            return both.applyAsDouble(first, 0);
        }

        @Override
        public OptionalDouble reduce(DoubleBinaryOperator both) {
            return OptionalDouble.of(both.applyAsDouble(0, 0));
        }

        @Override
        public <R> R collect(Supplier<R> made, ObjDoubleConsumer<R> next, BiConsumer<R, R> both) {
            R result = made.get();
            next.accept(result, 0);
            both.accept(result, result);
            return result;
        }

        @Override
        public double sum() {
            return 0;
        }

        @Override
        public OptionalDouble min() {
            return OptionalDouble.of(0);
        }

        @Override
        public OptionalDouble max() {
            return OptionalDouble.of(0);
        }

        @Override
        public OptionalDouble findFirst() {
            return OptionalDouble.of(0);
        }

        @Override
        public OptionalDouble findAny() {
            return OptionalDouble.of(0);
        }

        @Override
        public long count() {
            return 0;
        }

        @Override
        public OptionalDouble average() {
            return OptionalDouble.of(0);
        }

        @Override
        public DoubleSummaryStatistics summaryStatistics() {
            return new DoubleSummaryStatistics();
        }

        @Override
        public boolean anyMatch(DoublePredicate filter) {
            return filter.test(0);
        }

        @Override
        public boolean allMatch(DoublePredicate filter) {
            return filter.test(0);
        }

        @Override
        public boolean noneMatch(DoublePredicate filter) {
            return filter.test(0);
        }

        @Override
        public Stream<Double> boxed() {
            return new OneStream<>(Double.valueOf(0));
        }

        @Override
        public PrimitiveIterator.OfDouble iterator() {
            return new EachDouble();
        }

        @Override
        public Spliterator.OfDouble spliterator() {
            return java.util.Spliterators.emptyDoubleSpliterator();
        }

        @Override
        public boolean isParallel() {
            return false;
        }

        @Override
        public DoubleStream sequential() {
            return this;
        }

        @Override
        public DoubleStream parallel() {
            return this;
        }

        @Override
        public DoubleStream unordered() {
            return this;
        }

        @Override
        public DoubleStream onClose(Runnable action) {
            action.run();
            return this;
        }

        @Override
        public void close() {
            return;
        }
    }

    private static final class EachInt implements PrimitiveIterator.OfInt {
        @Override
        public boolean hasNext() {
            return false;
        }

        @Override
        public int nextInt() {
            return 0;
        }
    }

    private static final class EachLong implements PrimitiveIterator.OfLong {
        @Override
        public boolean hasNext() {
            return false;
        }

        @Override
        public long nextLong() {
            return 0;
        }
    }

    private static final class EachDouble implements PrimitiveIterator.OfDouble {
        @Override
        public boolean hasNext() {
            return false;
        }

        @Override
        public double nextDouble() {
            return 0;
        }
    }
}
