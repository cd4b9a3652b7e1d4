/** A field that one of a class below hides. */
class HiddenField {
    static class A {
        Object f = "A";
    }

    static class B extends A {
        Object f = "B";
    }

    public static void main(String[] words) {
        B b = new B();
        Object o = b.f;
        Object q = ((A) b).f;
    }
}
