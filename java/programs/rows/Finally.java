/** What stands in finally, behind each way out. */
class Finally {
    static Object log;

    /** Only a handler of any class catches it. */
    static class Grave extends Error {
        private static final long serialVersionUID = 1;
    }

    static Object way(int way) {
        for (int i = 0; ; i++) {
            try {
                if (way == 0) {
                    return "returned";
                }
                if (way == 1 && i == 0) {
                    continue;
                }
                if (way == 2) {
                    throw new IllegalStateException();
                }
                break;
            } catch (IllegalStateException e) {
                log = e;
            } finally {
                log = log == null ? "finally" : log;
                way = way == 2 ? 3 : way;
            }
        }
        return "left";
    }

    @SuppressWarnings("finally")
    static Object swallowed(Object value) {
        try {
            throw new IllegalArgumentException();
        } finally {
            return value;
        }
    }

    static Object kept(Object value) {
        try {
            return value;
        } finally {
            value = null;
        }
    }

    static void left() {
        try {
            throw new Grave();
        } finally {
            log = "grave";
        }
    }

    static Object replaced() throws Throwable {
        Throwable inner = new Throwable();
        try {
            try {
                throw inner;
            } finally {
                left();
            }
        } catch (Grave e) {
            return e;
        }
    }

    public static void main(String[] words) throws Throwable {
        Object a = way(0);
        Object b = way(1);
        Object c = way(2);
        Object d = log;
        Object e = swallowed("value");
        Object f = kept(new Object());
        Object g = replaced();
        Object h = log;
    }
}
