package boomer.cli;

import boomer.classes.BadInput;
import boomer.classes.ClassFile;
import boomer.classes.ClassPath;
import boomer.classes.From;
import boomer.jimple.Converter;
import java.io.IOException;
import java.nio.file.Files;
import java.nio.file.Path;
import java.util.List;
import java.util.concurrent.Callable;
import picocli.CommandLine.Command;
import picocli.CommandLine.Option;

/** {@code jimple}: class files to Jimple. */
@Command(name = "jimple", description = "Class files to Jimple, with a map of lines and variables.")
final class JimpleCommand implements Callable<Integer> {
    @Option(names = "-c", required = true, arity = "1..*", description = "folders, jars, or jrt:MODULE")
    private List<String> classes;

    @Option(names = "-o", description = "where the text is written; else standard output")
    private Path text;

    @Option(names = "--map", description = "where the map is written")
    private Path map;

    @Override
    public Integer call() throws BadInput, IOException {
        List<ClassPath> paths = new java.util.ArrayList<>();
        for (String word : classes) {
            paths.add(ClassPath.of(word));
        }
        Converter converter = new Converter(ClassPath.all(paths), From.USER, map != null);
        StringBuilder out = new StringBuilder();
        Progress progress = new Progress("classes converted");
        int skipped = 0;
        for (String name : ClassPath.all(paths).names()) {
            try {
                for (ClassFile file : converter.classes(name)) {
                    out.append(converter.print(file));
                }
            } catch (BadInput e) {
                System.err.println("boomer-java: skipped " + e.getMessage());
                skipped++;
            }
            progress.step();
        }
        if (text == null) {
            System.out.print(out);
        } else {
            Files.writeString(text, out);
        }
        if (map != null) {
            Files.writeString(map, converter.map().json());
        }
        return skipped == 0 ? Status.ANSWERED : Status.INPUT;
    }
}
