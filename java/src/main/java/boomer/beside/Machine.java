package boomer.beside;

import boomer.jimple.Stmt;
import java.util.HashMap;
import java.util.Map;

/** A frame of the machine, as far as it is followed. */
final class Machine {
    final String method;
    /** What tells of it, or null where nothing does. */
    final Cursor cursor;
    /** Whether the frame's own statements are told. */
    final boolean isTraced;
    /** How often each condition was decided here. */
    final Map<Integer, Integer> visits = new HashMap<>();
    /** The results of tests of classes, by the locals that have them. */
    final Map<String, Boolean> tests = new HashMap<>();
    /** The last event of an instruction. */
    Event last;
    /** The array that is cloned here, what becomes of it, and how many elements are copied. */
    Event cloning;
    int copied;

    Machine(String method, Cursor cursor, boolean isTraced) {
        this.method = method;
        this.cursor = cursor;
        this.isTraced = isTraced && cursor != null;
    }

    /** Whether a statement is the first of its instruction. */
    static boolean isFirst(Stmt statement, Integer first, int index) {
        return statement.instruction() >= 0 && first != null && first == index;
    }
}
