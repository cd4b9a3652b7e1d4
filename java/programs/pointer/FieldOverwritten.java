/** A field that is overwritten. */
class FieldOverwritten {
    static class A {
        Object f;
        A next;
    }

    public static void main(String[] words) {
        A a = new A();
        a.f = "first";
        Object o = a.f;
        a.f = "second";
        Object q = a.f;
        a.f = null;
        Object r = a.f;
    }
}
