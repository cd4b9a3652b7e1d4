/** Resources that are closed in order, behind results and exceptions. */
class Resources {
    static Object log;

    static class Open implements AutoCloseable {
        final Object name;
        final boolean fails;

        Open(Object name, boolean fails) {
            this.name = name;
            this.fails = fails;
        }

        @Override
        public void close() {
            log = name;
            if (fails) {
                throw new IllegalArgumentException("close");
            }
        }
    }

    static Object use(boolean fails, boolean failsAtEnd) {
        try (Open a = new Open("a", failsAtEnd); Open b = new Open("b", false)) {
            if (fails) {
                throw new IllegalStateException("use");
            }
            return b.name;
        } catch (IllegalArgumentException | IllegalStateException e) {
            return e;
        }
    }

    public static void main(String[] words) {
        Object a = use(false, false);
        Object b = log;
        Object c = use(true, false);
        Object d = use(false, true);
        Object e = use(true, true);
        try (Open none = null) {
            log = none;
        }
    }
}
