package boomer.cli;

import boomer.ask.Sources;
import boomer.classes.BadInput;
import boomer.classes.ClassPath;
import boomer.close.Closed;
import boomer.close.Depth;
import boomer.close.Library;
import boomer.close.Linking;
import boomer.program.Program;
import boomer.program.ProgramFailed;
import boomer.program.Programs;
import java.nio.file.Path;
import java.util.ArrayList;
import java.util.HashSet;
import java.util.List;
import java.util.Map;
import java.util.Set;
import picocli.CommandLine.Option;

/** The options of the commands that close a text and ask the program. */
final class Closing {
    @Option(names = "-c", required = true, arity = "1..*", description = "the user's classes: folders or jars")
    private List<String> classes;

    @Option(names = "-l", description = "libraries: folders or jars")
    private List<String> libraries = new ArrayList<>();

    @Option(names = "-m", required = true, description = "the class whose main is run")
    private String main;

    @Option(names = "--real", split = ",", description = "packages of the JDK that stand with their own bodies")
    private Set<String> real = new HashSet<>(Library.REAL);

    @Option(names = "--unknown", description = "deep, shallow or refuse: what code that isn't there is taken to do")
    private Depth unknown = Depth.DEEP;

    @Option(names = "--budget", description = "the greatest number of nodes that an answer may demand")
    private long budget = 100_000;

    @Option(names = "--seconds", description = "after so many seconds the program is ended")
    private long seconds = 60;

    @Option(names = "--sources", split = ":", description = "folders of source files, whose lines are shown")
    private List<Path> sources = new ArrayList<>(List.of(Path.of(".")));

    /** The repository: the folder above that of the companion, which the script names. */
    static Path top() {
        String java = System.getenv("BOOMER_JAVA");
        return Path.of(java == null ? "java" : java).toAbsolutePath().getParent();
    }

    /** The closed text, which isn't shown to the program. */
    Closed closed() throws BadInput {
        return Closed.of(library(), unknown, main.replace('.', '/'), Map.of());
    }

    /** The closed text, which the program links. */
    Closed linked(Program program) throws BadInput, ProgramFailed, Linking.NotLinked {
        return Linking.of(library(), unknown, main.replace('.', '/'), program);
    }

    Library library() throws BadInput {
        return new Library(paths(classes), ClassPath.of(top().resolve("java/out/stubs").toString()),
                paths(libraries), ClassPath.running(), real);
    }

    Program program() throws ProgramFailed {
        return Programs.find(top(), System.getenv(), seconds);
    }

    Sources sources() {
        return new Sources(sources);
    }

    long budget() {
        return budget;
    }

    private static ClassPath paths(List<String> words) throws BadInput {
        List<ClassPath> paths = new ArrayList<>();
        for (String word : words) {
            paths.add(ClassPath.of(word));
        }
        return ClassPath.all(paths);
    }
}
