package boomer.jimple;

/**
 * A trap: it covers the statements from {@code from} up to, not including, {@code to}.
 *
 * @param handler the statement at which it goes on
 * @param type the internal name of what it catches
 */
public record Trap(int from, int to, int handler, String type) { }
