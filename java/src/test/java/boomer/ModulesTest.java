package boomer;

import static org.junit.jupiter.api.Assertions.assertEquals;
import static org.junit.jupiter.api.Assertions.assertInstanceOf;
import static org.junit.jupiter.api.Assertions.assertTrue;

import boomer.classes.ClassFile;
import boomer.classes.ClassPath;
import boomer.classes.From;
import boomer.jimple.Converter;
import boomer.program.Reply;
import java.nio.charset.StandardCharsets;
import java.util.ArrayList;
import java.util.List;
import java.util.stream.IntStream;
import org.junit.jupiter.api.Test;

/** All classes of {@code java.base} are converted, and the program reads them. */
final class ModulesTest {
    private static final int PIECE = 16 * 1024 * 1024;
    private static final int PARTS = 4;

    @Test
    void allOfJavaBaseIsReadByTheProgram() throws Exception {
        ClassPath path = ClassPath.of("jrt:java.base");
        List<String> names = path.names();
        List<String> texts = IntStream.range(0, PARTS).parallel().mapToObj(part -> text(path, names, part)).toList();
        int pieces = 0;
        for (String text : texts) {
            assertTrue(!text.contains("dynamicinvoke"), "a dynamic call is left");
            for (String piece : pieces(text)) {
                Reply reply = Compiled.program().ask(piece.getBytes(StandardCharsets.UTF_8),
                        List.of("run", "Main", "0", "-"));
                Reply.Refused refused = assertInstanceOf(Reply.Refused.class, reply);
                assertEquals("NotLinked", refused.words().get(0));
                pieces++;
            }
        }
        System.out.println("java.base: " + names.size() + " classes, " + pieces + " pieces read");
    }

    private static String text(ClassPath path, List<String> names, int part) {
        try {
            Converter converter = new Converter(path, From.USER, false);
            StringBuilder text = new StringBuilder();
            for (String name : names.subList(names.size() * part / PARTS, names.size() * (part + 1) / PARTS)) {
                for (ClassFile file : converter.classes(name)) {
                    text.append(converter.print(file));
                }
            }
            return text.toString();
        } catch (Exception e) {
            throw new AssertionError(e);
        }
    }

    private static List<String> pieces(String text) {
        List<String> pieces = new ArrayList<>();
        int from = 0;
        while (text.length() - from > PIECE) {
            int to = text.lastIndexOf("\n}\n", from + PIECE - 3) + 3;
            pieces.add(text.substring(from, to));
            from = to;
        }
        pieces.add(text.substring(from));
        return pieces;
    }
}
