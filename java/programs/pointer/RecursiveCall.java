/** A list that a recursion makes. */
class RecursiveCall {
    static class A {
        Object f;
        A next;
    }

    static A list(int n) {
        A a = new A();
        a.next = n > 0 ? list(n - 1) : null;
        a.f = a.next == null ? "end" : a;
        return a;
    }

    public static void main(String[] words) {
        A a = list(3);
        Object o = a.next.next.next.f;
        Object q = a.next.f;
    }
}
