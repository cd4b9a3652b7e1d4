package java.util;

import boomer.support.Keeps;
import boomer.support.Same;
import java.util.function.Consumer;
import java.util.function.Function;
import java.util.function.Predicate;
import java.util.function.Supplier;
import java.util.stream.Stream;

@Keeps(value = "the value", covers = "runs")
public final class Optional<T> {
    private final T value;

    private Optional(T value) {
        this.value = value;
    }

    public static <T> Optional<T> empty() {
        return new Optional<>(null);
    }

    public static <T> Optional<T> of(T value) {
        return new Optional<>(Objects.requireNonNull(value));
    }

    public static <T> Optional<T> ofNullable(T value) {
        return new Optional<>(value);
    }

    public T get() {
        return orElseThrow();
    }

    public T orElseThrow() {
        if (value == null) {
            throw new NoSuchElementException();
        }
        return value;
    }

    public <X extends Throwable> T orElseThrow(Supplier<? extends X> made) throws X {
        if (value == null) {
            throw made.get();
        }
        return value;
    }

    public T orElse(T other) {
        return value == null ? other : value;
    }

    public T orElseGet(Supplier<? extends T> other) {
        return value == null ? other.get() : value;
    }

    public boolean isPresent() {
        return value != null;
    }

    public boolean isEmpty() {
        return value == null;
    }

    public void ifPresent(Consumer<? super T> action) {
        if (value != null) {
            action.accept(value);
        }
    }

    public void ifPresentOrElse(Consumer<? super T> action, Runnable otherwise) {
        if (value == null) {
            otherwise.run();
        } else {
            action.accept(value);
        }
    }

    public Optional<T> filter(Predicate<? super T> filter) {
        return value == null || filter.test(value) ? this : new Optional<>(null);
    }

    public <U> Optional<U> map(Function<? super T, ? extends U> made) {
        return new Optional<>(value == null ? null : made.apply(value));
    }

    @SuppressWarnings("unchecked")
    public <U> Optional<U> flatMap(Function<? super T, ? extends Optional<? extends U>> made) {
        return value == null ? new Optional<>(null) : (Optional<U>) made.apply(value);
    }

    @SuppressWarnings("unchecked")
    public Optional<T> or(Supplier<? extends Optional<? extends T>> other) {
        return value == null ? (Optional<T>) other.get() : this;
    }

    public Stream<T> stream() {
        return Stream.ofNullable(value);
    }

    public boolean equals(Object other) {
        return other instanceof Optional && Same.equal(value, ((Optional<?>) other).value);
    }

    public int hashCode() {
        return Same.hash(value);
    }

    public String toString() {
        String.valueOf(value);
        return new String();
    }
}
