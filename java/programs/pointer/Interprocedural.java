/** An object that goes through two calls. */
class Interprocedural {
    static class A {
        Object f;
        A next;
    }

    static A one(A a) {
        return two(a);
    }

    static A two(A a) {
        return a;
    }

    public static void main(String[] words) {
        A a = one(new A());
        A b = one(new A());
        A c = a == b ? null : b;
    }
}
