package boomer.close;

import boomer.classes.BadInput;
import boomer.classes.ClassFile;
import boomer.classes.From;
import boomer.jimple.Body;
import boomer.jimple.Kind;
import boomer.jimple.MapFile;
import boomer.jimple.Named;
import boomer.jimple.Printer;
import boomer.jimple.Stmt;
import java.nio.charset.StandardCharsets;
import java.util.HashSet;
import java.util.LinkedHashMap;
import java.util.List;
import java.util.Map;
import java.util.Set;
import org.objectweb.asm.Opcodes;
import org.objectweb.asm.tree.MethodNode;

/** Writes the classes that a run may reach, with what their statements may ask for. */
final class Text {
    private final Reach reach;
    private final Rests rests;
    private final MapFile map = new MapFile();
    private final Map<MethodNode, Body> bodies = new LinkedHashMap<>();
    private final Set<String> called = new HashSet<>();

    Text(Reach reach, Rests rests) {
        this.reach = reach;
        this.rests = rests;
    }

    /** The map of what was written. */
    MapFile map() {
        return map;
    }

    /** The text of some classes. */
    byte[] of(List<ClassFile> files) throws BadInput {
        Targets targets = new Targets(reach);
        Copies copies = new Copies(reach, targets);
        for (ClassFile file : files) {
            rests.add(file);
            for (MethodNode method : List.copyOf(file.node().methods)) {
                Body body = body(file, method);
                if (body != null) {
                    bodies.put(method, copies.calling(file, body));
                }
            }
        }
        copies.bodies().forEach(bodies::put);
        copies.bodies().forEach(reach::put);
        bodies.replaceAll((method, body) -> body.with(targets::decided));
        bodies.values().forEach(body -> body.statements().forEach(this::note));
        StringBuilder text = new StringBuilder();
        for (ClassFile file : files) {
            text.append(print(file));
        }
        return text.toString().getBytes(StandardCharsets.UTF_8);
    }

    private void note(Stmt statement) {
        if (statement.kind() == Kind.CALL) {
            Named.Method call = (Named.Method) statement.named();
            called.add(call.name() + call.descriptor());
        }
    }

    private String print(ClassFile file) throws BadInput {
        for (MethodNode method : file.node().methods) {
            if (bodies.containsKey(method)) {
                map.add(file, method, bodies.get(method), reach.has(method), false);
            }
        }
        return Printer.print(file, file.node().methods.stream().filter(method -> stands(file, method)).toList(),
                bodies::get);
    }

    /**
     * Whether a member has to stand. Look-ups go by name and descriptor, so a library's method without a body that no
     * call of the text names can't be found, nor hide another one.
     */
    private boolean stands(ClassFile file, MethodNode method) {
        return file.from() == From.USER || bodies.containsKey(method) || called.contains(method.name + method.desc);
    }

    /** A method that a run may reach has its body, and so have the user's methods, and initializers. */
    private Body body(ClassFile file, MethodNode method) throws BadInput {
        if ((method.access & (Opcodes.ACC_ABSTRACT | Opcodes.ACC_NATIVE)) != 0) {
            return null;
        }
        boolean isInitializer = method.name.equals("<clinit>") && (method.access & Opcodes.ACC_STATIC) != 0;
        if (!reach.has(method) && file.from() != From.USER && !isInitializer) {
            return null;
        }
        if (reach.has(method)) {
            rests.reached(method);
        }
        return reach.has(method) ? reach.body(method) : Body.of(file, method);
    }
}
