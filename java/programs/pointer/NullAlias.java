/** A local that is null again. */
class NullAlias {
    static class A {
        Object f;
        A next;
    }

    public static void main(String[] words) {
        A a = new A();
        A b = a;
        a = null;
        A c = b;
        b = a;
        A d = b;
    }
}
