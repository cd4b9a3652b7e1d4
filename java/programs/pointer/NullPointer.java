/** What is behind a null. */
class NullPointer {
    static class A {
        Object f;
        A next;
    }

    static Object f(A a) {
        try {
            return a.f;
        } catch (NullPointerException e) {
            return e;
        }
    }

    public static void main(String[] words) {
        A a = new A();
        Object o = f(a);
        Object q = f(a.next);
    }
}
