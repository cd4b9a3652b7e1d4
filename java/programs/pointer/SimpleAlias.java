/** Two names of one object. */
class SimpleAlias {
    static class A {
        Object f;
        A next;
    }

    public static void main(String[] words) {
        A a = new A();
        A b = a;
        A c = b;
        Object o = c;
    }
}
