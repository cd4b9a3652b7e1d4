package boomer.ask;

/** A place that isn't there, or isn't reached. Its message says what is near. */
public final class BadPlace extends Exception {
    private static final long serialVersionUID = 1;

    /** @param message what isn't there, and what is near */
    public BadPlace(String message) {
        super(message);
    }
}
