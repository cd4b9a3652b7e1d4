package boomer.beside;

import boomer.classes.BadInput;
import boomer.classes.ClassPath;
import boomer.close.Closed;
import boomer.program.Program;
import boomer.program.ProgramFailed;
import java.nio.charset.StandardCharsets;
import java.util.ArrayList;
import java.util.LinkedHashMap;
import java.util.List;
import java.util.Map;

/** A program on a JVM, beside the answers about it and beside the machine. */
public final class Beside {
    private final Running running;
    private final Closed closed;

    private Beside(Running running, Closed closed) {
        this.running = running;
        this.closed = closed;
    }

    /**
     * Runs a program on this JVM.
     *
     * @param user where its class files are
     * @throws BadInput where it can't be run, or does too much
     */
    public static Beside run(Closed closed, ClassPath user) throws BadInput {
        return new Beside(Running.of(closed, user), closed);
    }

    /** Compares the answers with what locals held, those with calls refined at so many places. */
    public Seen.Result seen(Program program, int refined) throws ProgramFailed {
        return new Seen(running).compare(program, closed.text(), closed.entry(), refined);
    }

    /** Compares the machine, for at most so many steps. */
    public Drive.Result drive(Program program, int most) throws ProgramFailed {
        return drive(driving(), program, most);
    }

    /** A comparison with the machine that is still to be made. */
    Drive driving() {
        return new Drive(running);
    }

    Drive.Result drive(Drive drive, Program program, int most) throws ProgramFailed {
        return drive.drive(program, ordered(), closed.entry(), most);
    }

    /**
     * The text with its classes in such an order that the root runs the initializers as the JVM did: first those of
     * which nothing is told.
     */
    byte[] ordered() {
        Map<String, String> classes = new LinkedHashMap<>();
        for (String each : new String(closed.text(), StandardCharsets.UTF_8).split("(?<=\n}\n)")) {
            classes.put(each.substring(0, each.indexOf('\n')), each);
        }
        List<String> ran = new ArrayList<>();
        for (String initializer : running.trace().finished()) {
            for (Map.Entry<String, String> each : classes.entrySet()) {
                String name = initializer.substring(1, initializer.indexOf(':'));
                if (isDeclared(each.getKey().replace("'", ""), name)) {
                    ran.add(each.getKey());
                }
            }
        }
        StringBuilder text = new StringBuilder();
        classes.forEach((head, each) -> text.append(ran.contains(head) ? "" : each));
        ran.stream().distinct().forEach(head -> text.append(classes.get(head)));
        return text.toString().getBytes(StandardCharsets.UTF_8);
    }

    private static boolean isDeclared(String head, String name) {
        List<String> words = List.of(head.split(" "));
        int at = Math.max(words.indexOf("class"), words.indexOf("interface"));
        return at >= 0 && words.get(at + 1).equals(name);
    }
}
