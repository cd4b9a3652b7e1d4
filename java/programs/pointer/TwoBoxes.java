/** Two boxes of one factory. */
class TwoBoxes {
    static class A {
        Object f;
        A next;
    }

    static A box(Object o) {
        A a = new A();
        a.f = o;
        return a;
    }

    public static void main(String[] words) {
        A a = box("a");
        A b = box(words);
        Object o = a.f;
        Object q = b.f;
    }
}
