import java.util.Deque;
import java.util.LinkedList;

/** Linked queues. */
class OfLinkedQueue {
    static class A {
        Object f;
    }

    public static void main(String[] words) {
        A a = new A();
        A b = new A();
        Deque<A> queue = new LinkedList<>();
        queue.add(a);
        queue.push(b);
        queue.offer(new A());
        queue.addLast(a);
        queue.addFirst(b);
        A first = queue.peek();
        A second = queue.pop();
        A third = queue.poll();
        A last = queue.peekLast();
        A end = queue.removeLast();
        A start = queue.getFirst();
        for (A each : queue) {
            A seen = each;
        }
        queue.clear();
        A none = queue.poll();
    }
}
