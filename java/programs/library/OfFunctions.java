import java.util.function.Function;
import java.util.function.Predicate;
import java.util.function.Supplier;
import java.util.concurrent.atomic.AtomicReference;
import java.util.concurrent.atomic.AtomicReferenceArray;
import java.util.function.BiFunction;

/** Interfaces of functions and their defaults. */
class OfFunctions {
    static class A {
        Object f;
    }

    public static void main(String[] words) {
        A a = new A();
        A b = new A();
        Function<Object, Object> f = x -> x == null ? a : x;
        Function<Object, Object> g = f.compose((Object x) -> words).andThen(x -> b);
        Object o = g.apply(a);
        Object q = f.apply(null);
        Predicate<Object> p = x -> x == a;
        boolean is = p.negate().and(x -> x != null).test(b);
        Supplier<A> s = A::new;
        A made = s.get();
        BiFunction<Object, Object, Object> h = (x, y) -> y;
        Object r = h.andThen(Function.identity()).apply(a, b);
        AtomicReference<Object> unknown = new AtomicReference<>(a);
        Object got = unknown.get();
        Object updated = unknown.updateAndGet(x -> b);
        AtomicReferenceArray<Object> cells = new AtomicReferenceArray<>(new Object[] {words});
        Object inCell = cells.get(0);
    }
}
