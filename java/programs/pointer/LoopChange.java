/** A local that changes in a loop. */
class LoopChange {
    static class A {
        Object f;
        A next;
    }

    public static void main(String[] words) {
        A a = new A();
        A b = new A();
        for (int i = 0; i < 3; i++) {
            A old = a;
            a = b;
            b = old;
        }
        A end = a;
    }
}
