/** Constructors that call one another, and that see fields before they are set. */
class Constructors {
    static class A {
        Object first = new Object();
        final Object given;

        A() {
            this("given");
        }

        A(Object given) {
            this.given = given;
            hook();
        }

        void hook() { }
    }

    static class B extends A {
        Object second = new int[1];
        Object early;

        B(boolean isNull) {
            super(isNull ? null : new A());
            Object now = early;
            early = second;
        }

        @Override
        void hook() {
            early = second == null ? this : second;
        }
    }

    static class Fails {
        Fails(Object o) {
            this(o.toString());
        }

        Fails(String text) {
            throw new IllegalStateException(text);
        }
    }

    public static void main(String[] words) {
        A a = new A();
        B b = new B(false);
        B c = new B(true);
        Object given = c.given;
        try {
            new Fails("made");
        } catch (IllegalStateException e) {
            given = e;
        }
        try {
            new Fails((Object) null);
        } catch (NullPointerException e) {
            given = e;
        }
        A d = new A(new B(false));
    }
}
