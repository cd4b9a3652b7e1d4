/** Exceptions: messages, causes, what is suppressed. */
class OfThrowables {
    static class A {
        Object f;
    }

    public static void main(String[] words) {
        A a = new A();
        A b = new A();
        Exception cause = new IllegalStateException("cause");
        RuntimeException e = new RuntimeException("message", cause);
        Throwable got = e.getCause();
        String message = e.getMessage();
        Throwable self = e.fillInStackTrace();
        e.addSuppressed(cause);
        Throwable[] all = e.getSuppressed();
        Throwable suppressed = all[0];
        Error error = new AssertionError(a);
        Throwable set = new Exception("x").initCause(e);
        Throwable inner = set.getCause();
    }
}
