import java.util.*;

/** Sorted maps, sets and queues. */
class OfSorted {
    static class A { Object f; }
    static class B { }
    public static void main(String[] args) {
        TreeMap<String, A> map = new TreeMap<>();
        A a = new A();
        map.put("a", a);
        map.put("b", new A());
        A got = map.get("a");
        String first = map.firstKey();
        Map.Entry<String, A> entry = map.firstEntry();
        A value = entry.getValue();
        SortedMap<String, A> head = map.headMap("b");
        A inHead = head.get("a");
        TreeSet<String> set = new TreeSet<>(map.keySet());
        String low = set.first();
        PriorityQueue<B> queue = new PriorityQueue<>(Comparator.comparing(Object::toString));
        B b = new B();
        queue.add(b);
        B peeked = queue.peek();
        HashMap<Integer, B> numbers = new HashMap<>();
        numbers.put(1, b);
        B one = numbers.get(1);
        Object end = one;
    }
}
