package boomer.jimple;

/** The kinds of statements. In each comment stand the words of a statement, and what it names. */
public enum Kind {
    /** {@code to := @this}. It names its type. */
    THIS,
    /** {@code to := @parameterN}. It names its type, and N. */
    PARAMETER,
    /** {@code to := @caughtexception}. */
    CAUGHT,
    /** {@code to = a}. */
    COPY,
    /** {@code to = (T) a} of a reference. */
    CAST,
    /** {@code to = (T) a} of a number. */
    CONVERT,
    /** {@code to = new C}. */
    NEW,
    /** {@code to = newarray (T)[a]}. */
    NEW_ARRAY,
    /** {@code to = newmultiarray (T)[a][b]..}. It names the whole type. */
    NEW_ARRAYS,
    /** {@code to = a op b}, or {@code neg a}. */
    NUMERIC,
    /** {@code to = a instanceof T}. */
    INSTANCE_OF,
    /** {@code to = lengthof a}. */
    LENGTH,
    /** {@code to = a.f}. */
    LOAD,
    /** {@code a.f = b}. */
    STORE,
    /** {@code to = C.f}. */
    LOAD_STATIC,
    /** {@code C.f = a}. */
    STORE_STATIC,
    /** {@code to = a[b]}. */
    LOAD_CELL,
    /** {@code a[b] = c}. */
    STORE_CELL,
    /** {@code to = a.m(b, ..)}, or {@code C.m(a, ..)}, with a result or without. */
    CALL,
    /** A dynamic call or constant, which the program refuses where a run may reach it. */
    DYNAMIC,
    /** {@code if a op b goto j}. */
    IF,
    /** {@code goto j}. */
    GOTO,
    /** A switch over a. It names its keys; the last jump is the default. */
    SWITCH,
    /** {@code return a}, or {@code return}. */
    RETURN,
    /** {@code throw a}. */
    THROW,
    /** {@code entermonitor a}. */
    ENTER,
    /** {@code exitmonitor a}. */
    EXIT;

    /** Whether the next statement may follow. */
    public boolean goesOn() {
        return this != GOTO && this != SWITCH && this != RETURN && this != THROW;
    }
}
