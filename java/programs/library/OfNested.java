import java.util.ArrayList;
import java.util.HashMap;
import java.util.List;
import java.util.Map;

/** Lists in maps. */
class OfNested {
    static class A {
        Object f;
    }

    public static void main(String[] words) {
        A a = new A();
        A b = new A();
        Map<String, List<A>> map = new HashMap<>();
        map.computeIfAbsent("a", key -> new ArrayList<>()).add(a);
        map.computeIfAbsent("a", key -> new ArrayList<>()).add(b);
        List<A> list = map.get("a");
        A first = list.get(0);
        A second = list.get(1);
    }
}
