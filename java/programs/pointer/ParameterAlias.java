/** Two parameters that are one object. */
class ParameterAlias {
    static class A {
        Object f;
        A next;
    }

    static void put(A a, A b) {
        a.f = new Object();
        Object o = b.f;
    }

    public static void main(String[] words) {
        A a = new A();
        put(a, a);
        put(a, new A());
        Object o = a.f;
    }
}
