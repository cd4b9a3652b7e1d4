import java.util.ArrayList;
import java.util.Collections;
import java.util.List;

/** Methods of Collections. */
class OfCollections {
    static class A {
        Object f;
    }

    public static void main(String[] words) {
        A a = new A();
        A b = new A();
        List<Object> list = new ArrayList<>();
        Collections.addAll(list, a, b, words);
        List<Object> fixed = Collections.unmodifiableList(list);
        Object first = fixed.get(0);
        Collections.reverse(list);
        Object last = list.get(0);
        Collections.swap(list, 0, 1);
        Object swapped = list.get(0);
        List<Object> single = Collections.singletonList(a);
        Object only = single.get(0);
        List<Object> none = Collections.emptyList();
    }
}
