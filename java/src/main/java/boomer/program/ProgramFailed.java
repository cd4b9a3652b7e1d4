package boomer.program;

/** The program couldn't be run, or its reply isn't of the known form. */
public final class ProgramFailed extends Exception {
    private static final long serialVersionUID = 1;

    /** @param message what went wrong, and what helps */
    public ProgramFailed(String message) {
        super(message);
    }
}
