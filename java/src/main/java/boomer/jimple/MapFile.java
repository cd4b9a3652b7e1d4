package boomer.jimple;

import boomer.classes.ClassFile;
import boomer.classes.From;
import boomer.classes.Names;
import com.fasterxml.jackson.annotation.JsonInclude;
import com.fasterxml.jackson.databind.ObjectMapper;
import java.io.IOException;
import java.util.ArrayList;
import java.util.LinkedHashMap;
import java.util.List;
import java.util.Map;
import java.util.TreeMap;
import java.util.stream.IntStream;
import org.objectweb.asm.tree.MethodNode;

/** What the statements and the locals of a text are in the class files: a map of all its methods that have bodies. */
public final class MapFile {
    private final Map<String, OfMethod> methods = new LinkedHashMap<>();

    /**
     * A method of the text.
     *
     * @param method its text, as commands name it
     * @param owner the internal name of its class
     * @param file the class's package as a folder, and its source file; or null
     * @param reached whether a run may reach it, as far as that is known
     * @param statements the statements by their numbers
     * @param slots before each instruction that has statements, by its number, the slots that surely hold references,
     *     and the local that has each
     */
    @JsonInclude(JsonInclude.Include.NON_NULL)
    public record OfMethod(String method, String owner, String file, From from, boolean reached,
            List<OfStatement> statements, List<OfLocal> locals, Map<Integer, Map<Integer, String>> slots) { }

    /** A statement: the number and the offset of its instruction, and its line; -1, -1 and 0 where there is none. */
    public record OfStatement(int instruction, int offset, int line) { }

    /**
     * A local.
     *
     * @param variable the source variable, or null
     * @param ranges the statements before which it is this variable: pairs of the first and the one behind the last
     * @param defined the statements that define it
     */
    @JsonInclude(JsonInclude.Include.NON_NULL)
    public record OfLocal(String name, String type, String variable, List<List<Integer>> ranges,
            List<Integer> defined) { }

    /** Adds a method with its body, with {@code slots} or without. */
    public void add(ClassFile file, MethodNode method, Body body, boolean isReached, boolean withSlots) {
        String text = Names.plainMethod(file.name(), method.name, method.desc);
        List<OfStatement> statements = body.statements().stream()
                .map(it -> new OfStatement(it.instruction(), it.offset(), it.line())).toList();
        methods.putIfAbsent(text, new OfMethod(text, file.name(), source(file), file.from(), isReached, statements,
                locals(body), withSlots ? slots(body) : null));
    }

    /** The package of a class as a folder, and its source file behind it; null where the class file names none. */
    public static String source(ClassFile file) {
        String source = file.node().sourceFile;
        return source == null ? null : file.name().substring(0, file.name().lastIndexOf('/') + 1) + source;
    }

    /** The methods in the order of the text. */
    public List<OfMethod> methods() {
        return List.copyOf(methods.values());
    }

    /** The method of this text, or null. */
    public OfMethod method(String text) {
        return methods.get(text);
    }

    /** The map as JSON. */
    public String json() {
        try {
            return new ObjectMapper().writeValueAsString(Map.of("schema", "boomer-java/map-1", "methods", methods()));
        } catch (IOException e) {
            throw new IllegalStateException(e);
        }
    }

    private static List<OfLocal> locals(Body body) {
        Map<Local, List<List<Integer>>> ranges = new LinkedHashMap<>();
        body.locals().forEach(local -> ranges.put(local, new ArrayList<>()));
        boolean isNamed = body.locals().stream().anyMatch(local -> local.variable() != null);
        for (int i = 0; isNamed && i < body.statements().size(); i++) {
            for (Local local : body.variables(i)) {
                List<List<Integer>> all = ranges.get(local);
                int last = all.size() - 1;
                if (last >= 0 && all.get(last).get(1) == i) {
                    all.set(last, List.of(all.get(last).get(0), i + 1));
                } else {
                    all.add(List.of(i, i + 1));
                }
            }
        }
        List<OfLocal> locals = new ArrayList<>();
        ranges.forEach((local, all) -> locals.add(new OfLocal(local.name(), Names.plainType(local.type()),
                local.variable(), all, defined(body, local))));
        return locals;
    }

    private static List<Integer> defined(Body body, Local local) {
        return IntStream.range(0, body.statements().size()).filter(at -> local.equals(body.statements().get(at).to()))
                .boxed().toList();
    }

    private static Map<Integer, Map<Integer, String>> slots(Body body) {
        Map<Integer, Map<Integer, String>> slots = new TreeMap<>();
        body.held().forEach((instruction, held) -> {
            Map<Integer, String> names = new TreeMap<>();
            held.forEach((slot, local) -> names.put(slot, local.name()));
            slots.put(instruction, names);
        });
        return slots;
    }
}
