/** A field that is stored by another name. */
class FieldByAlias {
    static class A {
        Object f;
        A next;
    }

    public static void main(String[] words) {
        A a = new A();
        A b = a;
        b.f = new int[0];
        Object o = a.f;
    }
}
