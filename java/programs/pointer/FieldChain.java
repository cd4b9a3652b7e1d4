/** Fields of fields. */
class FieldChain {
    static class A {
        Object f;
        A next;
    }

    public static void main(String[] words) {
        A a = new A();
        a.next = new A();
        a.next.next = new A();
        a.next.next.f = words;
        Object o = a.next.next.f;
        A b = a.next;
        Object q = b.next.f;
    }
}
