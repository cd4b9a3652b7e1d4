package boomer.support;

/** What a stub keeps of what it is given. */
public @interface Keeps {
    /** A sentence. */
    String value();

    /**
     * {@code runs}: each run of the real class is one of the stub's for what flows. {@code answers}: a field holds what
     * was put last, and that earlier ones are printed, too, follows from how answers take stores.
     */
    String covers() default "answers";
}
