package boomer.close;

import boomer.classes.BadInput;
import boomer.jimple.MapFile.OfMethod;
import boomer.program.Advice;
import boomer.program.Program;
import boomer.program.ProgramFailed;
import boomer.program.Reply;
import boomer.program.Reply.Refused;
import java.util.HashMap;
import java.util.List;
import java.util.Map;
import java.util.Set;

/**
 * Closes a text and asks the program whether it links. Where it refuses a body of a library, that body becomes unknown
 * code, and the text is closed anew.
 */
public final class Linking {
    private static final int TIMES = 100;

    private Linking() { }

    /**
     * A text that the program links.
     *
     * @throws NotLinked where it refuses what can't be changed
     */
    public static Closed of(Library library, Depth depth, String main, Program program)
            throws BadInput, ProgramFailed, NotLinked {
        Map<String, String> unknown = new HashMap<>();
        while (true) {
            Closed closed = Closed.of(library, depth, main, unknown);
            Reply reply = program.ask(closed.text(), List.of("run", closed.entry(), "1", "-"));
            if (!(reply instanceof Refused refused)) {
                return closed;
            }
            OfMethod method = closed.map().method(methodOf(refused));
            boolean isUsers = method == null || method.from() == boomer.classes.From.USER;
            if (isUsers || unknown.size() == TIMES || unknown.put(method.method(), refused.words().get(1)) != null) {
                throw new NotLinked(refused, said(refused, method) + missing(refused, closed));
            }
        }
    }

    /** The text of the method in which the refusal is: what stands between the kind and the index. */
    private static String methodOf(Refused refused) {
        String line = refused.lines().get(0);
        int from = line.indexOf('<');
        int to = line.lastIndexOf('>');
        return from < 0 || to < from ? "" : line.substring(from, to + 1);
    }

    private static String said(Refused refused, OfMethod method) {
        String line = refused.lines().get(0);
        String where = "";
        if (method != null && method.file() != null) {
            int index = Integer.parseInt(line.substring(line.lastIndexOf(' ') + 1));
            int of = index < method.statements().size() ? method.statements().get(index).line() : 0;
            where = method.file() + (of > 0 ? ":" + of : "") + ": ";
        }
        return where + line + " (status " + refused.status() + "): " + Advice.of(refused);
    }

    /** The classes that are named and aren't there, where the program refuses since one isn't. */
    private static String missing(Refused refused, Closed closed) {
        boolean isMissing = refused.is("NotLinked", "UnknownParent") || refused.is("NotLinked", "UnknownClass");
        Set<String> names = closed.reach().missing();
        return !isMissing || names.isEmpty() ? "" : "; not there: " + String.join(", ", names).replace('/', '.');
    }

    /** The program refuses the text. Its message has the place and an advice. */
    public static final class NotLinked extends Exception {
        private static final long serialVersionUID = 1;
        private final int status;

        NotLinked(Refused refused, String message) {
            super(message);
            status = refused.status();
        }

        /** The program's status. */
        public int status() {
            return status;
        }
    }
}
