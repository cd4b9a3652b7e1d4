package boomer;

import boomer.classes.ClassFile;
import boomer.classes.ClassPath;
import boomer.classes.From;
import boomer.jimple.Converter;
import boomer.program.Program;
import boomer.program.ProgramFailed;
import boomer.program.Programs;
import java.io.IOException;
import java.io.UncheckedIOException;
import java.nio.file.Files;
import java.nio.file.Path;
import java.util.ArrayList;
import java.util.List;
import java.util.Map;
import java.util.TreeMap;
import javax.tools.JavaCompiler;
import javax.tools.ToolProvider;

/** Small programs that tests compile, in a folder of their own, and the program that they ask. */
public final class Compiled {
    private final Path folder;

    private Compiled(Path folder) {
        this.folder = folder;
    }

    /** Compiles a source file with this name, with its lines and variables. */
    public static Compiled of(String file, String source) {
        try {
            Path folder = Files.createTempDirectory("boomer-java");
            Path path = Files.writeString(folder.resolve(file), source);
            JavaCompiler compiler = ToolProvider.getSystemJavaCompiler();
            int status = compiler.run(null, null, null, "-g", "-d", folder.toString(), "--release", "17",
                    path.toString());
            if (status != 0) {
                throw new IllegalStateException(file + " isn't compiled");
            }
            return new Compiled(folder);
        } catch (IOException e) {
            throw new UncheckedIOException(e);
        }
    }

    /** The folder of the class files and of the source. */
    public Path folder() {
        return folder;
    }

    /** The class files by their internal names. */
    public Map<String, byte[]> files() throws Exception {
        ClassPath path = ClassPath.of(folder.toString());
        Map<String, byte[]> files = new TreeMap<>();
        for (String name : path.names()) {
            files.put(name, path.find(name).orElseThrow());
        }
        return files;
    }

    /** The text of a class, and of those that stand for its lambdas. */
    public String jimple(String name) throws Exception {
        Converter converter = new Converter(ClassPath.of(folder.toString()), From.USER, true);
        StringBuilder text = new StringBuilder();
        for (ClassFile file : converter.classes(name)) {
            text.append(converter.print(file));
        }
        return text.toString();
    }

    /** The statements of the first method with this name in a text, without declarations, blanks and semicolons. */
    public static List<String> statements(String text, String method) {
        List<String> found = new ArrayList<>();
        boolean isIn = false;
        for (String line : text.split("\n")) {
            if (line.startsWith("    ") && line.contains(" " + method + "(") && line.endsWith(" {")) {
                isIn = true;
            } else if (line.equals("    }")) {
                if (isIn) {
                    return found;
                }
            } else if (isIn && !isDeclaration(line)) {
                found.add(line.strip().replaceAll(";$", ""));
            }
        }
        throw new IllegalArgumentException("no method " + method);
    }

    private static boolean isDeclaration(String line) {
        return line.matches("        [A-Za-z][\\w.$\\[\\]]* [\\w$#, ']+;") && !line.contains("goto ")
                && !line.startsWith("        return ") && !line.startsWith("        throw ");
    }

    /** The repository. */
    public static Path top() {
        return Path.of("").toAbsolutePath().getParent();
    }

    /** The program that tests ask. */
    public static Program program() throws ProgramFailed {
        return Programs.find(top(), System.getenv(), 120);
    }
}
