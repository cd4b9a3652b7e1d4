/** What a test of a class lets pass. */
class InstanceTest {
    static class A {
        Object f;
        A next;
    }

    public static void main(String[] words) {
        Object o = new A();
        A a = null;
        if (o instanceof A found) {
            a = found;
        }
        Object q = a instanceof Object ? a : words;
    }
}
