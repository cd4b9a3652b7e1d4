package boomer.cli;

import boomer.beside.Beside;
import boomer.beside.Drive;
import boomer.beside.Seen;
import boomer.classes.BadInput;
import boomer.close.Closed;
import boomer.close.Linking;
import boomer.program.Program;
import boomer.program.ProgramFailed;
import java.util.concurrent.Callable;
import picocli.CommandLine.Command;
import picocli.CommandLine.Mixin;
import picocli.CommandLine.Option;

/** {@code beside}: a program on a JVM, beside the answers about it and beside the machine. */
@Command(name = "beside", description = "The program on a JVM, beside its answers and beside the machine.")
final class BesideCommand implements Callable<Integer> {
    @Mixin
    private Closing closing;

    @Option(names = "--steps", description = "at most so many steps of the machine are compared")
    private int steps = 2_000;

    @Option(names = "--refined", description = "at so many places the answers with calls refined are compared, too")
    private int refined = 20;

    @Override
    public Integer call() throws BadInput, ProgramFailed, Linking.NotLinked {
        Program program = closing.program();
        Closed closed = closing.linked(program);
        Beside beside = Beside.run(closed, closing.library().user());
        Seen.Result seen = beside.seen(program, refined);
        System.out.println("places " + seen.places() + ", sites seen " + seen.sites() + ", printed " + seen.printed()
                + ", of the library " + seen.ofLibrary() + ", missing " + seen.missing().size());
        seen.missing().forEach(each -> System.out.println("missing " + each));
        Drive.Result driven = beside.drive(program, steps);
        System.out.println("steps " + driven.steps() + ", compared " + driven.compared() + ", values " + driven.values()
                + ", different " + (driven.difference() == null ? 0 : 1));
        if (driven.difference() != null) {
            System.out.println("different " + driven.difference());
        }
        if (driven.cut() != null) {
            System.out.println("not compared further: " + driven.cut());
        }
        return seen.missing().isEmpty() && driven.difference() == null ? Status.ANSWERED : Status.FINDINGS;
    }
}
