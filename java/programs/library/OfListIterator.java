import java.util.ArrayList;
import java.util.List;
import java.util.ListIterator;

/** Iterators of lists, and parts of lists. */
class OfListIterator {
    static class A {
        Object f;
    }

    public static void main(String[] words) {
        A a = new A();
        A b = new A();
        List<A> list = new ArrayList<>(List.of(a, b));
        ListIterator<A> it = list.listIterator();
        A first = it.next();
        it.set(b);
        A second = it.next();
        A back = it.previous();
        it.add(a);
        List<A> part = list.subList(0, 1);
        A inPart = part.get(0);
        A now = list.get(1);
    }
}
