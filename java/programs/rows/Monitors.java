/** Monitors, on objects, on null, left by exceptions. */
class Monitors {
    private final Object lock = new Object();
    private Object value;

    synchronized Object get() {
        return value;
    }

    static synchronized Object shared(Object o) {
        return o;
    }

    void set(Object value, boolean fails) {
        synchronized (lock) {
            synchronized (this) {
                if (fails) {
                    throw new IllegalStateException();
                }
                this.value = value;
            }
        }
    }

    static Object failed(Object lock, Error error) {
        try {
            synchronized (lock) {
                throw error;
            }
        } catch (Error e) {
            return e;
        }
    }

    public static void main(String[] words) {
        Monitors m = new Monitors();
        m.set("set", false);
        try {
            m.set("unset", true);
        } catch (IllegalStateException e) {
            m.value = e;
        }
        Object got = shared(m.get());
        try {
            Object none = null;
            synchronized (none) {
                got = none;
            }
        } catch (NullPointerException e) {
            got = e;
        }
        Object error = failed(got, new AssertionError());
        for (int i = 0; i < 2; i++) {
            synchronized (got) {
                if (i == 0) {
                    continue;
                }
            }
            break;
        }
    }
}
