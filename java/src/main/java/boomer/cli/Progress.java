package boomer.cli;

/** Says on standard error how far a work is, every two seconds. */
final class Progress {
    private static final long EVERY = 2_000_000_000L;
    private final String what;
    private long said = System.nanoTime();
    private int count;

    Progress(String what) {
        this.what = what;
    }

    /** One more is done. */
    void step() {
        count++;
        if (System.nanoTime() - said > EVERY) {
            said = System.nanoTime();
            System.err.println("boomer-java: " + count + " " + what);
        }
    }
}
