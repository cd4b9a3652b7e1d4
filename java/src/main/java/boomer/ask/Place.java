package boomer.ask;

import boomer.jimple.MapFile;

/**
 * A local just before a statement.
 *
 * @param variable the source variable
 * @param local the local of the text that it is there
 * @param when {@code before} or {@code behind} the line
 */
public record Place(MapFile.OfMethod method, int line, int index, String variable, String local, String when) {
    /** As answers begin. */
    String text() {
        return method.file() + ":" + line + "  " + variable + "   (" + when + " the line, before " + index + " of "
                + method.method() + ")";
    }
}
