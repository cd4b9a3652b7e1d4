package boomer.close;

import boomer.classes.BadInput;
import boomer.classes.ClassFile;
import boomer.classes.From;
import boomer.jimple.Body;
import boomer.jimple.Named;
import boomer.jimple.Stmt;
import java.util.ArrayDeque;
import java.util.ArrayList;
import java.util.Deque;
import java.util.HashMap;
import java.util.HashSet;
import java.util.LinkedHashMap;
import java.util.LinkedHashSet;
import java.util.List;
import java.util.Map;
import java.util.Set;
import org.objectweb.asm.Opcodes;
import org.objectweb.asm.tree.MethodNode;

/**
 * What a run from an entry may reach: classes, and methods by class hierarchy analysis over the classes of the text. A
 * class comes in where a reached statement or trap names it, or as a parent, so the classes are closed under parents.
 */
public final class Reach {
    /** The classes without which nothing links. */
    private static final List<String> NEEDED = List.of("Object", "String", "Class", "NullPointerException",
            "ArrayIndexOutOfBoundsException", "ArrayStoreException", "NegativeArraySizeException", "ClassCastException",
            "ArithmeticException");

    private final World world;
    private final Refused refused;
    private final Map<String, ClassFile> classes = new LinkedHashMap<>();
    private final Map<String, Set<ClassFile>> below = new HashMap<>();
    private final Map<String, Set<Called>> called = new HashMap<>();
    private final Set<String> initialized = new HashSet<>();
    private final Map<MethodNode, Body> bodies = new HashMap<>();
    private final Deque<Method> waiting = new ArrayDeque<>();
    private final Set<String> missing = new LinkedHashSet<>();

    /** A call of virtual or interface mode. */
    private record Called(String name, String descriptor) { }

    /** A method of a class. */
    private record Method(ClassFile owner, MethodNode method) { }

    /**
     * What may be reached from the {@code main} of a class.
     *
     * @throws BadInput where a reached body can't be converted
     */
    public Reach(World world, String main) throws BadInput {
        this.world = world;
        this.refused = new Refused(world);
        for (String each : NEEDED) {
            add("java/lang/" + each);
        }
        ClassFile entry = add(main);
        if (entry == null) {
            throw new BadInput(main.replace('/', '.') + ": there is no such class");
        }
        reach(entry, "main", "([Ljava/lang/String;)V");
        while (!waiting.isEmpty()) {
            Method next = waiting.pop();
            go(next);
        }
    }

    /** The classes of the text, in the order in which they came in. */
    public List<ClassFile> classes() {
        return List.copyOf(classes.values());
    }

    /** The class of the text that has this internal name, or null. */
    public ClassFile named(String internalName) {
        return classes.get(internalName);
    }

    /** Whether a class of the text is another one or below it. */
    public boolean isBelow(ClassFile file, String above) {
        return ancestors(file).contains(above);
    }

    /** The classes of the text that may have objects and are a class or below it. */
    List<ClassFile> instantiable(String above) {
        return below.getOrDefault(above, Set.of()).stream().filter(Reach::isInstantiable).toList();
    }

    private static boolean isInstantiable(ClassFile file) {
        return (file.node().access & (Opcodes.ACC_ABSTRACT | Opcodes.ACC_INTERFACE)) == 0
                || file.name().equals("java/lang/Object");
    }

    /** Whether a run may reach a method. */
    public boolean has(MethodNode method) {
        return bodies.containsKey(method);
    }

    /** The body of a reached method, or null. */
    public Body body(MethodNode method) {
        return bodies.get(method);
    }

    /** A method has this body: it was filled when all classes were known, or it is a copy of one that is reached. */
    void put(MethodNode method, Body body) {
        bodies.put(method, body);
    }

    /** The internal names of classes that are named where a run may come, and aren't there. */
    public Set<String> missing() {
        return missing;
    }

    private ClassFile add(String name) {
        ClassFile file = classes.get(name);
        if (file != null) {
            return file;
        }
        file = world.find(name).orElse(null);
        if (file == null) {
            missing.add(name);
            return null;
        }
        classes.put(name, file);
        parents(file).forEach(this::add);
        for (String above : ancestors(file)) {
            below.computeIfAbsent(above, any -> new LinkedHashSet<>()).add(file);
            for (Called each : Set.copyOf(called.getOrDefault(above, Set.of()))) {
                target(file, each);
            }
        }
        return file;
    }

    private static List<String> parents(ClassFile file) {
        List<String> parents = new ArrayList<>(file.node().interfaces);
        if (file.node().superName != null) {
            parents.add(0, file.node().superName);
        }
        return parents;
    }

    /** The names of a class and of all classes above it. */
    private Set<String> ancestors(ClassFile file) {
        Set<String> all = new LinkedHashSet<>();
        Deque<ClassFile> left = new ArrayDeque<>(List.of(file));
        while (!left.isEmpty()) {
            ClassFile each = left.pop();
            if (all.add(each.name())) {
                parents(each).forEach(name -> world.find(name).ifPresent(left::add));
            }
        }
        return all;
    }

    /** Takes an object of a class as the receiver of a call. */
    private void target(ClassFile file, Called call) {
        if (isInstantiable(file)) {
            reach(file, call.name, call.descriptor);
        }
    }

    /** Looks a method up from a class, and takes each that a parent or an interface has where there are several. */
    private void reach(ClassFile file, String name, String descriptor) {
        for (ClassFile each = file; each != null; each = parent(each)) {
            MethodNode method = each.method(name, descriptor);
            if (method != null && (method.access & Opcodes.ACC_ABSTRACT) == 0) {
                reach(new Method(each, method));
                return;
            }
        }
        for (String above : ancestors(file)) {
            ClassFile each = world.find(above).orElse(null);
            MethodNode method = each == null ? null : each.method(name, descriptor);
            if (method != null && (method.access & Opcodes.ACC_ABSTRACT) == 0) {
                reach(new Method(each, method));
            }
        }
    }

    private ClassFile parent(ClassFile file) {
        return file.node().superName == null ? null : world.find(file.node().superName).orElse(null);
    }

    private void reach(Method next) {
        if (!bodies.containsKey(next.method) && (next.method.access & Opcodes.ACC_NATIVE) == 0) {
            bodies.put(next.method, null);
            waiting.add(next);
        }
    }

    private void go(Method next) throws BadInput {
        ClassFile owner = next.owner;
        if (owner.from() != From.USER) {
            String why = refused.why(next.method);
            if (why != null) {
                world.makeUnknown(owner, next.method, why);
            }
        }
        if ((next.method.access & Opcodes.ACC_NATIVE) != 0) {
            bodies.remove(next.method);
            return;
        }
        Body body = Body.of(owner, next.method);
        bodies.put(next.method, body);
        body.traps().forEach(trap -> add(trap.type()));
        body.statements().forEach(this::statement);
    }

    private void statement(Stmt statement) {
        switch (statement.kind()) {
            case NEW -> initialize(add(((Named.OfType) statement.named()).type().getInternalName()));
            case LOAD, STORE -> add(((Named.Field) statement.named()).owner());
            case LOAD_STATIC, STORE_STATIC -> initialize(add(((Named.Field) statement.named()).owner()));
            case CALL -> call((Named.Method) statement.named());
            default -> { }
        }
    }

    private void call(Named.Method method) {
        ClassFile owner = add(method.owner());
        if (owner == null) {
            return;
        }
        switch (method.mode()) {
            case STATIC -> {
                initialize(owner);
                reach(owner, method.name(), method.descriptor());
            }
            case SPECIAL -> reach(owner, method.name(), method.descriptor());
            default -> {
                Called call = new Called(method.name(), method.descriptor());
                if (called.computeIfAbsent(owner.name(), any -> new HashSet<>()).add(call)) {
                    for (ClassFile each : List.copyOf(below.getOrDefault(owner.name(), Set.of()))) {
                        target(each, call);
                    }
                }
            }
        }
    }

    /** The initializers of a class and of all above it may run. */
    private void initialize(ClassFile file) {
        if (file == null || !initialized.add(file.name())) {
            return;
        }
        MethodNode initializer = file.method("<clinit>", "()V");
        if (initializer != null) {
            reach(new Method(file, initializer));
        }
        parents(file).forEach(name -> world.find(name).ifPresent(this::initialize));
    }
}
