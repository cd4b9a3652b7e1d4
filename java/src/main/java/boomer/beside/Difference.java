package boomer.beside;

/** The machine does something else than Java, or can't be followed further. */
final class Difference extends Exception {
    private static final long serialVersionUID = 1;
    /** Whether only the comparison ends here. */
    final boolean isCut;

    Difference(String what, boolean isCut) {
        super(what);
        this.isCut = isCut;
    }

    static void unless(boolean holds, String what) throws Difference {
        if (!holds) {
            throw new Difference(what, false);
        }
    }
}
