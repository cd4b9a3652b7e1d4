/** A field that a method sets. */
class FieldOfParameter {
    static class A {
        Object f;
        A next;
    }

    static void set(A a, Object o) {
        a.f = o;
    }

    static Object get(A a) {
        return a.f;
    }

    public static void main(String[] words) {
        A a = new A();
        A b = new A();
        set(a, "a");
        set(b, b);
        Object o = get(a);
        Object q = get(b);
    }
}
