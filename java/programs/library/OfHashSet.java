import java.util.HashSet;
import java.util.Iterator;
import java.util.List;
import java.util.Set;

/** Sets. */
class OfHashSet {
    static class A {
        Object f;
    }

    public static void main(String[] words) {
        A a = new A();
        A b = new A();
        Set<Object> set = new HashSet<>();
        set.add(a);
        set.add(b);
        set.add("text");
        for (Object each : set) {
            Object seen = each;
        }
        Iterator<Object> it = set.iterator();
        Object first = it.next();
        it.remove();
        boolean is = set.contains(a) || set.remove(b);
        set.addAll(List.of(a, words));
        Object[] all = set.toArray();
        Object inAll = all[0];
        set.retainAll(List.of(a));
        for (Object each : set) {
            Object kept = each;
        }
    }
}
