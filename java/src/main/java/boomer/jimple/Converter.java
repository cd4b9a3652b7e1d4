package boomer.jimple;

import boomer.classes.BadInput;
import boomer.classes.ClassFile;
import boomer.classes.ClassPath;
import boomer.classes.From;
import java.io.IOException;
import java.io.UncheckedIOException;
import java.util.ArrayList;
import java.util.HashMap;
import java.util.List;
import java.util.Map;
import java.util.Optional;
import org.objectweb.asm.tree.MethodNode;

/** Converts the classes of a path one by one, with all their bodies. */
public final class Converter {
    private final ClassPath path;
    private final From from;
    private final boolean withMap;
    private final MapFile map = new MapFile();
    /** Classes into whose members looks are taken; they aren't rewritten. */
    private final Map<String, Optional<ClassFile>> looked = new HashMap<>();

    /** Converts what the path has; with {@code withMap} the map is filled, too. */
    public Converter(ClassPath path, From from, boolean withMap) {
        this.path = path;
        this.from = from;
        this.withMap = withMap;
    }

    /** The map of what was printed. */
    public MapFile map() {
        return map;
    }

    /** A class of the path, rewritten, and behind it those that stand for its lambdas. */
    public List<ClassFile> classes(String internalName) throws BadInput, IOException {
        byte[] bytes = path.find(internalName).orElseThrow(() -> new BadInput(internalName
                + ": there is no such class"));
        ClassFile file = ClassFile.read(bytes, from, internalName);
        List<ClassFile> all = new ArrayList<>(List.of(file));
        all.addAll(Rewriting.rewrite(file, this::look));
        return all;
    }

    /** The text of a class. */
    public String print(ClassFile file) throws BadInput {
        return Printer.print(file, method -> body(file, method));
    }

    private Body body(ClassFile file, MethodNode method) throws BadInput {
        Body body = Body.of(file, method);
        if (withMap) {
            map.add(file, method, body, true, true);
        }
        return body;
    }

    private Optional<ClassFile> look(String internalName) {
        return looked.computeIfAbsent(internalName, name -> {
            try {
                Optional<byte[]> bytes = path.find(name);
                return bytes.isEmpty() ? Optional.empty()
                        : Optional.of(ClassFile.readMembers(bytes.get(), from, name));
            } catch (IOException e) {
                throw new UncheckedIOException(e);
            } catch (BadInput e) {
                return Optional.empty();
            }
        });
    }
}
