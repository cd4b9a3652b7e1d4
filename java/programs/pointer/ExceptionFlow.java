/** An object in an exception. */
class ExceptionFlow {
    static class Carries extends RuntimeException {
        private static final long serialVersionUID = 1;
        final transient Object held;

        Carries(Object held) {
            this.held = held;
        }
    }

    static void raise(Object o) {
        throw new Carries(o);
    }

    public static void main(String[] words) {
        Object got = null;
        try {
            raise(words);
        } catch (Carries e) {
            got = e.held;
        }
        Object o = got;
    }
}
