/** A result that is one of two. */
class ReturnOfTwo {
    static class A {
        Object f;
        A next;
    }

    static A choose(int way) {
        A a = new A();
        A b = new A();
        return way == 0 ? a : b;
    }

    public static void main(String[] words) {
        A a = choose(0);
        A b = choose(1);
    }
}
