package boomer.cli;

import boomer.classes.BadInput;
import boomer.close.Closed;
import boomer.close.Linking;
import boomer.program.ProgramFailed;
import com.fasterxml.jackson.databind.ObjectMapper;
import java.io.IOException;
import java.nio.file.Files;
import java.nio.file.Path;
import java.util.Map;
import java.util.concurrent.Callable;
import picocli.CommandLine.Command;
import picocli.CommandLine.Mixin;
import picocli.CommandLine.Option;

/** {@code close}: a text with all classes that a run needs. */
@Command(name = "close", description = "Class files to a Jimple text with the classes that a run from MAIN needs.")
final class CloseCommand implements Callable<Integer> {
    @Mixin
    private Closing closing;

    @Option(names = "-o", description = "where the text is written; else standard output")
    private Path text;

    @Option(names = "--map", description = "where the map is written")
    private Path map;

    @Option(names = "--rests", arity = "0..1", fallbackValue = "-",
            description = "where is written what the text rests on")
    private String rests;

    @Option(names = "--unasked", description = "the program isn't asked whether the text links")
    private boolean isUnasked;

    @Override
    public Integer call() throws BadInput, IOException, ProgramFailed, Linking.NotLinked {
        Closed closed = isUnasked ? closing.closed() : closing.linked(closing.program());
        if (text == null) {
            System.out.write(closed.text());
            System.out.flush();
        } else {
            Files.write(text, closed.text());
        }
        if (map != null) {
            Files.writeString(map, closed.map().json());
        }
        if (rests != null) {
            String json = new ObjectMapper().writerWithDefaultPrettyPrinter().writeValueAsString(Map.of("classes",
                    closed.rests().classes(), "unknown", closed.rests().methods()));
            if (rests.equals("-")) {
                System.out.println(json);
            } else {
                Files.writeString(Path.of(rests), json);
            }
        }
        closed.reach().missing().forEach(name -> System.err.println("boomer-java: there is no class "
                + name.replace('/', '.')));
        System.err.println("boomer-java: " + closed.text().length + " bytes; " + closed.rests().summary());
        return Status.ANSWERED;
    }
}
