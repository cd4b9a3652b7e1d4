package boomer.classes;

/** An input that can't be read or converted. Its message says which, and why. */
public final class BadInput extends Exception {
    private static final long serialVersionUID = 1;

    /** @param message the input's name, and what is wrong with it */
    public BadInput(String message) {
        super(message);
    }

    /** @param message the input's name, and what is wrong with it */
    public BadInput(String message, Throwable cause) {
        super(message, cause);
    }
}
