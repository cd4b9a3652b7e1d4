import java.util.ArrayList;
import java.util.Comparator;
import java.util.List;

/** Sorting, which calls back. */
class OfSorting {
    static class A {
        Object f;
    }

    static Object last;

    public static void main(String[] words) {
        A a = new A();
        A b = new A();
        List<A> list = new ArrayList<>(List.of(a, b));
        list.sort((x, y) -> {
            A one = x;
            last = y;
            return 0;
        });
        Object seen = last;
        Comparator<Object> by = Comparator.comparing(Object::hashCode);
        A first = list.get(0);
    }
}
