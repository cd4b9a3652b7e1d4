import java.util.function.Function;
import java.util.function.Supplier;

/** Lambdas and method references: what they capture, adapt and give back. */
class Lambdas {
    interface Three<A, B, C> {
        Object of(A a, B b, C c);
    }

    interface Numbers {
        long of(int a);
    }

    final Object held;

    Lambdas(Object held) {
        this.held = held;
    }

    Object held() {
        return held;
    }

    static Object second(Object a, Object b, Object c) {
        return b;
    }

    static int plain(Integer a) {
        return 3;
    }

    Supplier<Object> self() {
        return () -> held;
    }

    public static void main(String[] words) {
        Object one = new Object();
        Object two = new int[2];
        Supplier<Object> captured = () -> one;
        Object a = captured.get();
        Three<Object, Object, Object> order = (x, y, z) -> y == null ? two : z;
        Object b = order.of(one, null, a);
        Object c = order.of(one, two, words);
        Three<Object, Object, Object> reference = Lambdas::second;
        Object d = reference.of("x", "y", "z");
        Function<Object, Lambdas> maker = Lambdas::new;
        Lambdas made = maker.apply(two);
        Supplier<Object> bound = made::held;
        Object e = bound.get();
        Function<Lambdas, Object> unbound = Lambdas::held;
        Object f = unbound.apply(made);
        Object g = made.self().get();
        Function<Integer, Object[]> arrays = Object[]::new;
        Numbers numbers = Lambdas::plain;
        long number = numbers.of(4);
        Runnable nothing = () -> { };
        nothing.run();
        Function<Object, Function<Object, Object>> curried = x -> y -> x;
        Object h = curried.apply(one).apply(two);
        Supplier<Object> both = () -> second(one, two, null);
        Object i = both.get();
    }
}
