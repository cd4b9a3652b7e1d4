/** Fields: set, unset, hidden, of null. */
class Fields {
    static class A {
        Object value;
        A next;
        int number = 1;
    }

    static class B extends A {
        Object value = "hides";
    }

    static Object value(A a) {
        return a.value;
    }

    public static void main(String[] words) {
        A a = new A();
        Object none = a.value;
        a.value = "set";
        B b = new B();
        Object hidden = ((A) b).value;
        Object hiding = b.value;
        b.next = a;
        a.next = b;
        b.next.next.next.value = "round";
        Object round = value(a);
        a.number = b.number++ + --a.number;
        a.value = null;
        none = value(a);
        try {
            a = null;
            value(a);
        } catch (NullPointerException e) {
            none = e;
        }
        try {
            a.value = none;
        } catch (NullPointerException e) {
            round = e;
        }
        synchronized (b) {
            b.value = round;
        }
        hiding = b.value;
    }
}
