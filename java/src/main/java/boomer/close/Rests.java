package boomer.close;

import boomer.classes.ClassFile;
import boomer.classes.From;
import boomer.classes.Names;
import java.util.ArrayList;
import java.util.LinkedHashMap;
import java.util.List;
import java.util.Map;
import org.objectweb.asm.tree.AnnotationNode;
import org.objectweb.asm.tree.MethodNode;

/** What a text rests on beside the user's classes. */
public final class Rests {
    private static final String KEEPS = "Lboomer/support/Keeps;";
    private final Map<MethodNode, OfMethod> whys = new LinkedHashMap<>();
    private final List<OfClass> classes = new ArrayList<>();
    private final List<OfMethod> methods = new ArrayList<>();

    /**
     * A class of the text.
     *
     * @param covers of a stub {@code runs} or {@code answers}, else null
     * @param keeps of a stub a sentence on what it keeps, else null
     */
    public record OfClass(String name, From from, String covers, String keeps) { }

    /** A method whose body is unknown code, and why. */
    public record OfMethod(String method, String why) { }

    void unknown(ClassFile file, MethodNode method, String why) {
        whys.put(method, new OfMethod(Names.plainMethod(file.name(), method.name, method.desc), why));
    }

    /** A class comes into the text. */
    void add(ClassFile file) {
        String covers = null;
        String keeps = null;
        for (AnnotationNode each : file.node().invisibleAnnotations == null ? List.<AnnotationNode>of()
                : file.node().invisibleAnnotations) {
            if (each.desc.equals(KEEPS)) {
                keeps = (String) value(each, "value");
                covers = String.valueOf(value(each, "covers"));
            }
        }
        classes.add(new OfClass(Names.plainClass(file.name()), file.from(), covers, keeps));
    }

    private static Object value(AnnotationNode annotation, String name) {
        int at = annotation.values == null ? -1 : annotation.values.indexOf(name);
        return at < 0 ? "answers" : annotation.values.get(at + 1);
    }

    /** A method comes into the text with its body. */
    void reached(MethodNode method) {
        if (whys.containsKey(method)) {
            methods.add(whys.get(method));
        }
    }

    /** The classes of the text, in order. */
    public List<OfClass> classes() {
        return List.copyOf(classes);
    }

    /** The methods of unknown code that a run may reach, in order. */
    public List<OfMethod> methods() {
        return List.copyOf(methods);
    }

    /** How many classes come from there. */
    public long count(From from) {
        return classes.stream().filter(each -> each.from() == from).count();
    }

    /** One line that counts. */
    public String summary() {
        long answers = classes.stream().filter(each -> "answers".equals(each.covers())).count();
        return "rests on " + count(From.STUB) + " stubs (" + answers + " cover answers), " + methods.size()
                + " unknown methods; --rests lists them";
    }
}
