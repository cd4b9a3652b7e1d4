package java.lang;

import boomer.support.Keeps;

@Keeps("the streams")
public final class System {
    public static java.io.InputStream in = new java.io.ByteArrayInputStream(null);
    public static java.io.PrintStream out = new java.io.PrintStream();
    public static java.io.PrintStream err = new java.io.PrintStream();

    private System() { }

    public static void setOut(java.io.PrintStream stream) {
        out = stream;
    }

    public static void setErr(java.io.PrintStream stream) {
        err = stream;
    }

    public static long currentTimeMillis() {
        return 0;
    }

    public static long nanoTime() {
        return 0;
    }

    public static int identityHashCode(Object object) {
        return 0;
    }

    public static void exit(int status) { }

    public static void gc() { }

    public static String lineSeparator() {
        return new String();
    }

    public static String getProperty(String key) {
        return key == null ? null : new String();
    }

    public static String getProperty(String key, String otherwise) {
        return key == null ? otherwise : new String();
    }

    public static String getenv(String key) {
        return key == null ? null : new String();
    }

    public static void arraycopy(Object from, int fromAt, Object to, int toAt, int count) {
        Object[] read = (Object[]) from;
        Object[] written = (Object[]) to;
        for (int i = 0; i < count; i++) {
            written[toAt + i] = read[fromAt + i];
        }
    }
}
