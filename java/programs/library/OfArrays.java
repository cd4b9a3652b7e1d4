import java.util.Arrays;
import java.util.List;

/** Methods of Arrays. */
class OfArrays {
    static class A {
        Object f;
    }

    public static void main(String[] words) {
        A a = new A();
        A b = new A();
        A[] array = {a, b};
        List<A> list = Arrays.asList(array);
        A first = list.get(0);
        list.set(0, b);
        A changed = array[0];
        A[] copy = Arrays.copyOf(array, 3);
        A copied = copy[1];
        Arrays.fill(array, a);
        A filled = array[1];
    }
}
