package boomer.program;

import java.io.IOException;
import java.nio.file.Files;
import java.nio.file.Path;
import java.util.ArrayList;
import java.util.List;
import java.util.Map;

/**
 * Which program is asked: the one that {@code BOOMER} names; else the one that the script {@code ./boomer} keeps,
 * proved or, where none is, tried. Each kept one has a stamp beside it.
 */
public final class Programs {
    private Programs() { }

    /**
     * The program to ask.
     *
     * @param top the repository
     * @throws ProgramFailed where there is none
     */
    public static Program find(Path top, Map<String, String> environment, long seconds) throws ProgramFailed {
        String named = environment.get("BOOMER");
        if (named != null && !named.isEmpty()) {
            if (!Files.isExecutable(Path.of(named))) {
                throw new ProgramFailed("BOOMER names " + named + ", which can't be run");
            }
            return new Process(Path.of(named).toAbsolutePath(), named, false, seconds);
        }
        Path out = top.resolve("crates/boomer/out");
        if (isKept(out.resolve("boomer"))) {
            confirm(top, List.of("demo", "1"));
            return new Process(out.resolve("boomer"), "./boomer", true, seconds);
        }
        if (isKept(out.resolve("tried"))) {
            confirm(top, List.of("--try", "demo", "1"));
            return new Process(out.resolve("tried"), "./boomer --try", false, seconds);
        }
        throw new ProgramFailed("no program is built. `./boomer demo 1` proves and builds it, in 45 to 95 minutes "
                + "on four processors; `./boomer --try demo 1` builds one that isn't proved, in two. "
                + "BOOMER may name another one");
    }

    private static boolean isKept(Path program) {
        return Files.isExecutable(program) && Files.exists(program.resolveSibling(program.getFileName() + ".sources"));
    }

    /** Calls the script once, so that the program is of the sources as they stand. */
    private static void confirm(Path top, List<String> words) throws ProgramFailed {
        List<String> command = new ArrayList<>(List.of(top.resolve("boomer").toString()));
        command.addAll(words);
        try {
            java.lang.Process script = new ProcessBuilder(command).redirectOutput(ProcessBuilder.Redirect.DISCARD)
                    .redirectError(ProcessBuilder.Redirect.INHERIT).start();
            script.getOutputStream().close();
            if (script.waitFor() != 0) {
                throw new ProgramFailed("./boomer " + String.join(" ", words) + " ended with status "
                        + script.exitValue());
            }
        } catch (IOException e) {
            throw new ProgramFailed("./boomer can't be run: " + e.getMessage());
        } catch (InterruptedException e) {
            Thread.currentThread().interrupt();
            throw new ProgramFailed("./boomer was interrupted");
        }
    }
}
