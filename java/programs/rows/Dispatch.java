/** Which method a call runs: overridden, inherited, private and hidden by one of a class below. */
class Dispatch {
    static class A {
        Object get() {
            return "A";
        }

        private Object own() {
            return "own of A";
        }

        Object outer() {
            return own();
        }

        Object again() {
            return this.get();
        }

        static Object shared() {
            return "shared by A";
        }
    }

    static class B extends A {
        @Override
        Object get() {
            return super.get() == null ? this : "B";
        }

        Object own() {
            return "own of B";
        }

        static Object shared() {
            return "shared by B";
        }
    }

    static class C extends B {
        @Override
        Object outer() {
            return super.outer();
        }

        @Override
        Object again() {
            return super.again();
        }
    }

    public static void main(String[] words) {
        A[] all = {new A(), new B(), new C()};
        for (A each : all) {
            Object got = each.get();
            Object outer = each.outer();
            Object again = each.again();
            Object own = each.own();
        }
        Object own = ((B) all[2]).own();
        Object a = A.shared();
        Object b = C.shared();
        try {
            A none = null;
            none.get();
        } catch (NullPointerException e) {
            a = e;
        }
    }
}
