/** A local that a branch sets. */
class BranchOne {
    static class A {
        Object f;
        A next;
    }

    public static void main(String[] words) {
        A a = new A();
        A b = null;
        if (words.length > 0) {
            b = a;
        }
        A c = b;
    }
}
