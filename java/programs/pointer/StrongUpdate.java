/** A field that is set again before it is read. */
class StrongUpdate {
    static class A {
        Object f;
        A next;
    }

    public static void main(String[] words) {
        A a = new A();
        A b = a;
        a.f = "old";
        b.f = "new";
        Object o = a.f;
    }
}
