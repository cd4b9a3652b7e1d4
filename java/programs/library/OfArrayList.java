import java.util.ArrayList;
import java.util.List;

/** Lists. */
class OfArrayList {
    static class A {
        Object f;
    }

    public static void main(String[] words) {
        A a = new A();
        A b = new A();
        List<A> list = new ArrayList<>();
        list.add(a);
        list.add(b);
        list.add(0, b);
        A first = list.get(0);
        A second = list.get(1);
        A old = list.set(1, new A());
        A set = list.get(1);
        for (A each : list) {
            A seen = each;
        }
        A removed = list.remove(0);
        boolean is = list.contains(b) && list.remove(b);
        list.addAll(List.of(a, b));
        A last = list.get(list.size() - 1);
        list.forEach(each -> each.f = each);
        Object o = last.f;
        Object[] array = list.toArray();
        Object inArray = array[0];
        A[] typed = list.toArray(new A[0]);
        A inTyped = typed[0];
        list.removeIf(each -> each == a);
        list.replaceAll(each -> b);
        A replaced = list.get(0);
        list.clear();
    }
}
