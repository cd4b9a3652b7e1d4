package java.lang;

import boomer.support.Keeps;

@Keeps("the message, the cause, and what was suppressed last")
public class Throwable implements java.io.Serializable {
    private String message;
    private Throwable cause;
    private Throwable suppressed;

    public Throwable() { }

    public Throwable(String message) {
        this.message = message;
    }

    public Throwable(String message, Throwable cause) {
        this.message = message;
        this.cause = cause;
    }

    public Throwable(Throwable cause) {
        this.cause = cause;
        this.message = cause == null ? null : cause.toString();
    }

    protected Throwable(String message, Throwable cause, boolean isSuppressing, boolean isWritable) {
        this.message = message;
        this.cause = cause;
    }

    public String getMessage() {
        return message;
    }

    public String getLocalizedMessage() {
        return getMessage();
    }

    public Throwable getCause() {
        return cause;
    }

    public Throwable initCause(Throwable cause) {
        this.cause = cause;
        return this;
    }

    public String toString() {
        String text = getLocalizedMessage();
        return text == null ? new String() : text;
    }

    public void printStackTrace() {
        toString();
    }

    public Throwable fillInStackTrace() {
        return this;
    }

    public StackTraceElement[] getStackTrace() {
        return new StackTraceElement[0];
    }

    public void setStackTrace(StackTraceElement[] trace) { }

    public final void addSuppressed(Throwable other) {
        suppressed = other;
    }

    public final Throwable[] getSuppressed() {
        Throwable[] all = new Throwable[1];
        all[0] = suppressed;
        return all;
    }
}
