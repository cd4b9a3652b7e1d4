/** A field that is stored and loaded. */
class FieldStore {
    static class A {
        Object f;
        A next;
    }

    public static void main(String[] words) {
        A a = new A();
        a.f = new Object();
        Object o = a.f;
        A b = new A();
        b.f = a;
        Object q = b.f;
    }
}
