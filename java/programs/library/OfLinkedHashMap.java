import java.util.LinkedHashMap;
import java.util.Map;

/** Maps in order. */
class OfLinkedHashMap {
    static class A {
        Object f;
    }

    public static void main(String[] words) {
        A a = new A();
        A b = new A();
        Map<Object, A> map = new LinkedHashMap<>();
        A none = map.put("a", a);
        A old = map.put("a", b);
        map.put(words, a);
        A got = map.get("a");
        A missing = map.get("c");
        A other = map.getOrDefault("c", b);
        for (Map.Entry<Object, A> each : map.entrySet()) {
            Object key = each.getKey();
            A value = each.getValue();
        }
        for (Object key : map.keySet()) {
            Object seen = key;
        }
        for (A value : map.values()) {
            A seen = value;
        }
        A made = map.computeIfAbsent("d", key -> new A());
        A put = map.putIfAbsent("e", a);
        A merged = map.merge("e", b, (x, y) -> y);
        A computed = map.compute("e", (key, x) -> x == null ? a : x);
        map.forEach((key, value) -> value.f = key);
        Object o = a.f;
        A removed = map.remove("a");
        map.putAll(Map.of("f", a));
        A f = map.get("f");
    }
}
