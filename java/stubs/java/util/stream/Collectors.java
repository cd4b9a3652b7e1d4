package java.util.stream;

import boomer.support.Keeps;
import java.util.ArrayList;
import java.util.Collection;
import java.util.Collections;
import java.util.Comparator;
import java.util.HashMap;
import java.util.HashSet;
import java.util.List;
import java.util.Map;
import java.util.Objects;
import java.util.Optional;
import java.util.Set;
import java.util.StringJoiner;
import java.util.function.BiFunction;
import java.util.function.BinaryOperator;
import java.util.function.Function;
import java.util.function.Predicate;
import java.util.function.Supplier;
import java.util.function.ToDoubleFunction;
import java.util.function.ToIntFunction;
import java.util.function.ToLongFunction;

@Keeps("what the collections that are made keep. A collector makes one, so all groups are one list")
public final class Collectors {
    private Collectors() { }

    /** One object that changes while it is collected. */
    private static final class Box<T> {
        private T value;
    }

    public static <T> Collector<T, ?, List<T>> toList() {
        List<T> made = new ArrayList<>();
        return new OneCollector<T, List<T>, List<T>>(() -> made, (all, each) -> all.add(each), null, all -> all);
    }

    public static <T> Collector<T, ?, List<T>> toUnmodifiableList() {
        List<T> made = new ArrayList<>();
        return new OneCollector<T, List<T>, List<T>>(() -> made, (all, each) -> all.add(each), null,
                all -> Collections.unmodifiableList(all));
    }

    public static <T> Collector<T, ?, Set<T>> toSet() {
        Set<T> made = new HashSet<>();
        return new OneCollector<T, Set<T>, Set<T>>(() -> made, (all, each) -> all.add(each), null, all -> all);
    }

    public static <T> Collector<T, ?, Set<T>> toUnmodifiableSet() {
        Set<T> made = new HashSet<>();
        return new OneCollector<T, Set<T>, Set<T>>(() -> made, (all, each) -> all.add(each), null,
                all -> Collections.unmodifiableSet(all));
    }

    public static <T, C extends Collection<T>> Collector<T, ?, C> toCollection(Supplier<C> made) {
        return new OneCollector<T, C, C>(made, (all, each) -> all.add(each), null, all -> all);
    }

    public static Collector<CharSequence, ?, String> joining() {
        StringJoiner made = new StringJoiner(null);
        return new OneCollector<CharSequence, StringJoiner, String>(() -> made,
                (all, each) -> all.add(each), null, all -> all.toString());
    }

    public static Collector<CharSequence, ?, String> joining(CharSequence between) {
        return joining();
    }

    public static Collector<CharSequence, ?, String> joining(CharSequence between, CharSequence before,
            CharSequence behind) {
        return joining();
    }

    public static <T, K, U> Collector<T, ?, Map<K, U>> toMap(Function<? super T, ? extends K> key,
            Function<? super T, ? extends U> value) {
        Map<K, U> made = new HashMap<>();
        return new OneCollector<T, Map<K, U>, Map<K, U>>(() -> made, (all, each) -> {
            if (all.put(key.apply(each), value.apply(each)) != null) {
                throw new IllegalStateException();
            }
        }, null, all -> all);
    }

    public static <T, K, U> Collector<T, ?, Map<K, U>> toUnmodifiableMap(Function<? super T, ? extends K> key,
            Function<? super T, ? extends U> value) {
        return collectingAndThen(toMap(key, value), all -> Collections.unmodifiableMap(all));
    }

    public static <T, K, U> Collector<T, ?, Map<K, U>> toMap(Function<? super T, ? extends K> key,
            Function<? super T, ? extends U> value, BinaryOperator<U> both) {
        Map<K, U> kept = new HashMap<>();
        return new OneCollector<T, Map<K, U>, Map<K, U>>(() -> kept,
                (all, each) -> all.merge(key.apply(each), value.apply(each), both), null, all -> all);
    }

    public static <T, K, U, M extends Map<K, U>> Collector<T, ?, M> toMap(Function<? super T, ? extends K> key,
            Function<? super T, ? extends U> value, BinaryOperator<U> both, Supplier<M> made) {
        return new OneCollector<T, M, M>(made, (all, each) -> all.merge(key.apply(each), value.apply(each), both), null,
                all -> all);
    }

    public static <T, K> Collector<T, ?, Map<K, List<T>>> groupingBy(Function<? super T, ? extends K> key) {
        Map<K, List<T>> made = new HashMap<>();
        List<T> group = new ArrayList<>();
        return new OneCollector<T, Map<K, List<T>>, Map<K, List<T>>>(() -> made, (all, each) -> {
            group.add(each);
            all.put(Objects.requireNonNull(key.apply(each)), group);
        }, null, all -> all);
    }

    public static <T, K, A, D> Collector<T, ?, Map<K, D>> groupingBy(Function<? super T, ? extends K> key,
            Collector<? super T, A, D> below) {
        Map<K, D> made = new HashMap<>();
        return new OneCollector<T, Map<K, D>, Map<K, D>>(() -> made, (all, each) -> {
            A group = below.supplier().get();
            below.accumulator().accept(group, each);
            all.put(Objects.requireNonNull(key.apply(each)), below.finisher().apply(group));
        }, null, all -> all);
    }

    @SuppressWarnings("unchecked")
    public static <T, K, D, A, M extends Map<K, D>> Collector<T, ?, M> groupingBy(Function<? super T, ? extends K> key,
            Supplier<M> made, Collector<? super T, A, D> below) {
        return new OneCollector<T, M, M>(made, (all, each) -> {
            A group = below.supplier().get();
            below.accumulator().accept(group, each);
            all.put(Objects.requireNonNull(key.apply(each)), below.finisher().apply(group));
        }, null, all -> all);
    }

    public static <T> Collector<T, ?, Map<Boolean, List<T>>> partitioningBy(Predicate<? super T> filter) {
        return groupingBy(each -> filter.test(each));
    }

    public static <T, D, A> Collector<T, ?, Map<Boolean, D>> partitioningBy(Predicate<? super T> filter,
            Collector<? super T, A, D> below) {
        return groupingBy(each -> filter.test(each), below);
    }

    public static <T> Collector<T, ?, Long> counting() {
        Box<T> kept = new Box<>();
        return new OneCollector<T, Box<T>, Long>(() -> kept, (all, each) -> all.value = each, null, all -> 0L);
    }

    public static <T, U, A, R> Collector<T, ?, R> mapping(Function<? super T, ? extends U> made,
            Collector<? super U, A, R> below) {
        return new OneCollector<T, A, R>(below.supplier(),
                (all, each) -> below.accumulator().accept(all, made.apply(each)), null, below.finisher());
    }

    public static <T, A, R> Collector<T, ?, R> filtering(Predicate<? super T> filter, Collector<? super T, A,
            R> below) {
        return new OneCollector<T, A, R>(below.supplier(), (all, each) -> {
            if (filter.test(each)) {
                below.accumulator().accept(all, each);
            }
        }, null, below.finisher());
    }

    public static <T, U, A, R> Collector<T, ?, R> flatMapping(
            Function<? super T, ? extends Stream<? extends U>> made, Collector<? super U, A, R> below) {
        return new OneCollector<T, A, R>(below.supplier(),
                (all, each) -> made.apply(each).forEach(one -> below.accumulator().accept(all, one)), null,
                below.finisher());
    }

    public static <T, A, R, S> Collector<T, A, S> collectingAndThen(Collector<T, A, R> below, Function<R, S> end) {
        return new OneCollector<T, A, S>(below.supplier(), below.accumulator(), null,
                all -> end.apply(below.finisher().apply(all)));
    }

    public static <T> Collector<T, ?, Optional<T>> minBy(Comparator<? super T> order) {
        return maxBy(order);
    }

    public static <T> Collector<T, ?, Optional<T>> maxBy(Comparator<? super T> order) {
        return reducing((a, b) -> order.compare(a, b) > 0 ? a : b);
    }

    public static <T> Collector<T, ?, Optional<T>> reducing(BinaryOperator<T> both) {
        Box<T> kept = new Box<>();
        return new OneCollector<T, Box<T>, Optional<T>>(() -> kept,
                (all, each) -> all.value = all.value == null ? each : both.apply(all.value, each), null,
                all -> Optional.ofNullable(all.value));
    }

    public static <T> Collector<T, ?, T> reducing(T first, BinaryOperator<T> both) {
        return reducing(first, each -> each, both);
    }

    public static <T, U> Collector<T, ?, U> reducing(U first, Function<? super T, ? extends U> made,
            BinaryOperator<U> both) {
        Box<U> kept = new Box<>();
        return new OneCollector<T, Box<U>, U>(() -> kept,
                (all, each) -> all.value = both.apply(all.value == null ? first : all.value, made.apply(each)), null,
                all -> all.value == null ? first : all.value);
    }

    public static <T> Collector<T, ?, Integer> summingInt(ToIntFunction<? super T> made) {
        Box<T> kept = new Box<>();
        return new OneCollector<T, Box<T>, Integer>(() -> kept, (all, each) -> made.applyAsInt(each), null, all -> 0);
    }

    public static <T> Collector<T, ?, Long> summingLong(ToLongFunction<? super T> made) {
        Box<T> kept = new Box<>();
        return new OneCollector<T, Box<T>, Long>(() -> kept, (all, each) -> made.applyAsLong(each), null, all -> 0L);
    }

    public static <T> Collector<T, ?, Double> summingDouble(ToDoubleFunction<? super T> made) {
        Box<T> kept = new Box<>();
        return new OneCollector<T, Box<T>, Double>(() -> kept, (all, each) -> made.applyAsDouble(each), null,
                all -> 0.0);
    }

    public static <T> Collector<T, ?, Double> averagingInt(ToIntFunction<? super T> made) {
        Box<T> kept = new Box<>();
        return new OneCollector<T, Box<T>, Double>(() -> kept, (all, each) -> made.applyAsInt(each), null, all -> 0.0);
    }

    public static <T> Collector<T, ?, Double> averagingLong(ToLongFunction<? super T> made) {
        Box<T> kept = new Box<>();
        return new OneCollector<T, Box<T>, Double>(() -> kept, (all, each) -> made.applyAsLong(each), null,
                all -> 0.0);
    }

    public static <T> Collector<T, ?, Double> averagingDouble(ToDoubleFunction<? super T> made) {
        return summingDouble(made);
    }

    public static <T, R, S, U> Collector<T, ?, U> teeing(Collector<? super T, ?, R> first,
            Collector<? super T, ?, S> second, BiFunction<? super R, ? super S, U> both) {
        return teed(first, second, both);
    }

    private static <T, A, B, R, S, U> Collector<T, ?, U> teed(Collector<? super T, A, R> first,
            Collector<? super T, B, S> second, BiFunction<? super R, ? super S, U> both) {
        Pair<A, B> made = new Pair<>(first.supplier().get(), second.supplier().get());
        return new OneCollector<T, Pair<A, B>, U>(() -> made,
                (all, each) -> {
                    first.accumulator().accept(all.a, each);
                    second.accumulator().accept(all.b, each);
                }, null, all -> both.apply(first.finisher().apply(all.a), second.finisher().apply(all.b)));
    }

    /** What two collectors collect. */
    private static final class Pair<A, B> {
        private final A a;
        private final B b;

        Pair(A a, B b) {
            this.a = a;
            this.b = b;
        }
    }
}
