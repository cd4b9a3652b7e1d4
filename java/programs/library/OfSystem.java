/** System and streams. */
class OfSystem {
    static class A {
        Object f;
    }

    public static void main(String[] words) {
        A a = new A();
        A b = new A();
        Object[] from = {a, b};
        Object[] to = new Object[2];
        System.arraycopy(from, 0, to, 1, 1);
        Object copied = to[1];
        Object none = to[0];
        System.out.println(a);
        System.out.print("x");
        long now = System.nanoTime() + System.identityHashCode(a);
    }
}
