/** A call on one of two classes. */
class VirtualCall {
    static class A {
        Object get() {
            return "A";
        }
    }

    static class B extends A {
        Object get() {
            return this;
        }
    }

    public static void main(String[] words) {
        A a = words.length > 3 ? new A() : new B();
        Object o = a.get();
        A b = new A();
        Object q = b.get();
    }
}
