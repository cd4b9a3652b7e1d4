package boomer.cli;

import picocli.CommandLine;
import picocli.CommandLine.Command;

/** The companion's commands. */
@Command(name = "boomer-java",
        subcommands = {JimpleCommand.class, CloseCommand.class, AskCommand.class, BesideCommand.class},
        description = "From class files to an answer of the program.")
public final class Main {
    private Main() { }

    /** Runs a command, and ends with its status. */
    public static void main(String[] words) {
        System.exit(run(words));
    }

    /** Runs a command. */
    public static int run(String... words) {
        CommandLine line = new CommandLine(new Main()).setCaseInsensitiveEnumValuesAllowed(true);
        line.setExecutionExceptionHandler((e, failed, parsed) -> {
            System.err.println("boomer-java: " + e.getMessage());
            return Status.of(e);
        });
        return line.execute(words);
    }
}
