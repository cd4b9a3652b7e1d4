import java.util.Objects;
import java.util.Optional;

/** Objects and Optional. */
class OfObjects {
    static class A {
        Object f;
    }

    public static void main(String[] words) {
        A a = new A();
        A b = new A();
        A some = Objects.requireNonNull(a);
        A other = Objects.requireNonNullElse(null, b);
        boolean is = Objects.equals(a, b);
        Optional<A> full = Optional.of(a);
        A got = full.get();
        A mapped = full.map(x -> b).orElse(null);
        A none = Optional.<A>empty().orElse(a);
        A made = Optional.<A>empty().orElseGet(A::new);
        Object thrown = null;
        try {
            Objects.requireNonNull(null);
        } catch (NullPointerException e) {
            thrown = e;
        }
    }
}
