/** Objects that hold each other. */
class CyclicFields {
    static class A {
        Object f;
        A next;
    }

    public static void main(String[] words) {
        A a = new A();
        A b = new A();
        a.next = b;
        b.next = a;
        A c = a;
        for (int i = 0; i < 3; i++) {
            c = c.next;
        }
        c.f = c;
        Object o = b.f;
    }
}
