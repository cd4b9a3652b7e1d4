import java.util.HashMap;
import java.util.Iterator;
import java.util.Map;

/** Entries that write through. */
class OfMapEntries {
    static class A {
        Object f;
    }

    public static void main(String[] words) {
        A a = new A();
        A b = new A();
        Map<String, Object> map = new HashMap<>();
        map.put("a", a);
        Iterator<Map.Entry<String, Object>> it = map.entrySet().iterator();
        Map.Entry<String, Object> entry = it.next();
        Object old = entry.setValue(b);
        Object got = map.get("a");
        map.replace("a", words);
        Object replaced = map.get("a");
        map.replaceAll((key, value) -> key);
        Object text = map.get("a");
        it = map.entrySet().iterator();
        it.next();
        it.remove();
    }
}
