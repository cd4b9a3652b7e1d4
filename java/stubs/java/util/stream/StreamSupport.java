package java.util.stream;

import boomer.support.Keeps;
import java.util.Spliterator;
import java.util.function.Consumer;
import java.util.function.Supplier;

@Keeps("what the spliterator gives; streams of numbers are unknown")
public final class StreamSupport {
    private StreamSupport() { }

    public static <T> Stream<T> stream(Spliterator<T> all, boolean isParallel) {
        Taken<T> taken = new Taken<>();
        all.tryAdvance(taken);
        return new OneStream<>(taken.element);
    }

    public static <T> Stream<T> stream(Supplier<? extends Spliterator<T>> all, int characteristics,
            boolean isParallel) {
        return stream(all.get(), isParallel);
    }

    private static final class Taken<T> implements Consumer<T> {
        private T element;

        @Override
        public void accept(T each) {
            element = each;
        }
    }
}
