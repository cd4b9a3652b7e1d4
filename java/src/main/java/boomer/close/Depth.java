package boomer.close;

/** How much unknown code is taken to do. */
public enum Depth {
    /** It keeps what comes in, and moves it between the fields of the library's objects and the elements of arrays. */
    DEEP,
    /** It keeps what comes in. */
    SHALLOW,
    /** There is none: what would be unknown code has no body, and the program refuses it where it is reached. */
    REFUSE
}
