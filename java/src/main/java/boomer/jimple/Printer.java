package boomer.jimple;

import boomer.classes.BadInput;
import boomer.classes.ClassFile;
import boomer.classes.Names;
import java.util.ArrayList;
import java.util.LinkedHashMap;
import java.util.List;
import java.util.Map;
import java.util.StringJoiner;
import java.util.TreeMap;
import java.util.TreeSet;
import java.util.stream.Collectors;
import org.objectweb.asm.Opcodes;
import org.objectweb.asm.Type;
import org.objectweb.asm.tree.ClassNode;
import org.objectweb.asm.tree.FieldNode;
import org.objectweb.asm.tree.MethodNode;

/** Prints classes as Jimple. */
public final class Printer {
    private static final Map<Integer, String> CLASS_WORDS = words(Opcodes.ACC_PUBLIC, "public", Opcodes.ACC_FINAL,
            "final", Opcodes.ACC_ABSTRACT, "abstract", Opcodes.ACC_ENUM, "enum", Opcodes.ACC_ANNOTATION, "annotation");
    private static final Map<Integer, String> FIELD_WORDS = words(Opcodes.ACC_PUBLIC, "public", Opcodes.ACC_PRIVATE,
            "private", Opcodes.ACC_PROTECTED, "protected", Opcodes.ACC_STATIC, "static", Opcodes.ACC_FINAL, "final",
            Opcodes.ACC_VOLATILE, "volatile", Opcodes.ACC_TRANSIENT, "transient");
    private static final Map<Integer, String> METHOD_WORDS = words(Opcodes.ACC_PUBLIC, "public", Opcodes.ACC_PRIVATE,
            "private", Opcodes.ACC_PROTECTED, "protected", Opcodes.ACC_STATIC, "static", Opcodes.ACC_FINAL, "final",
            Opcodes.ACC_SYNCHRONIZED, "synchronized", Opcodes.ACC_NATIVE, "native", Opcodes.ACC_ABSTRACT, "abstract");

    private final StringBuilder out = new StringBuilder();

    private Printer() { }

    /** The bodies of a class's methods. */
    @FunctionalInterface
    public interface Bodies {
        /** The body of a method; null where the method is to stand without one, as a native method. */
        Body of(MethodNode method) throws BadInput;
    }

    /** The text of a class, with all its members in the order of the class file. */
    public static String print(ClassFile file, Bodies bodies) throws BadInput {
        return print(file, file.node().methods, bodies);
    }

    /** The text of a class with these of its methods. */
    public static String print(ClassFile file, List<MethodNode> methods, Bodies bodies) throws BadInput {
        Printer printer = new Printer();
        printer.header(file);
        for (FieldNode field : file.node().fields) {
            printer.out.append("    ").append(modifiers(FIELD_WORDS, field.access))
                    .append(Names.ofType(Type.getType(field.desc))).append(' ').append(Names.ofMember(field.name))
                    .append(";\n");
        }
        for (MethodNode method : methods) {
            boolean hasCode = (method.access & (Opcodes.ACC_ABSTRACT | Opcodes.ACC_NATIVE)) == 0;
            printer.method(method, hasCode ? bodies.of(method) : null, hasCode);
        }
        printer.out.append("}\n");
        return printer.out.toString();
    }

    private void header(ClassFile file) {
        ClassNode node = file.node();
        int words = file.isInterface() ? node.access & ~Opcodes.ACC_ABSTRACT : node.access;
        out.append(modifiers(CLASS_WORDS, words)).append(file.isInterface() ? "interface " : "class ")
                .append(Names.ofClass(node.name));
        if (node.superName != null && !file.isInterface()) {
            out.append(" extends ").append(Names.ofClass(node.superName));
        }
        if (!node.interfaces.isEmpty()) {
            out.append(" implements ").append(joined(node.interfaces));
        }
        out.append(" {\n");
    }

    private void method(MethodNode method, Body body, boolean hasCode) {
        int words = hasCode && body == null ? method.access | Opcodes.ACC_NATIVE : method.access;
        out.append("    ").append(modifiers(METHOD_WORDS, words))
                .append(Names.ofType(Type.getReturnType(method.desc))).append(' ').append(Names.ofMember(method.name))
                .append(Names.parameters(method.desc, false));
        if (!method.exceptions.isEmpty()) {
            out.append(" throws ").append(joined(method.exceptions));
        }
        if (body == null) {
            out.append(";\n");
            return;
        }
        out.append(" {\n");
        declarations(body);
        statements(body);
        out.append("    }\n");
    }

    private void declarations(Body body) {
        Map<String, List<String>> names = new LinkedHashMap<>();
        for (Local local : body.locals()) {
            names.computeIfAbsent(Names.ofType(local.type()), type -> new ArrayList<>())
                    .add(Names.ofMember(local.name()));
        }
        names.forEach((type, all) -> out.append("        ").append(type).append(' ').append(String.join(", ", all))
                .append(";\n"));
    }

    private void statements(Body body) {
        TreeSet<Integer> targets = new TreeSet<>();
        body.statements().forEach(statement -> targets.addAll(statement.jumps()));
        for (Trap trap : body.traps()) {
            targets.addAll(List.of(trap.from(), trap.to(), trap.handler()));
        }
        Map<Integer, String> labels = new TreeMap<>();
        targets.forEach(target -> labels.put(target, "label" + (labels.size() + 1)));
        for (int i = 0; i < body.statements().size(); i++) {
            label(labels.get(i));
            out.append("        ").append(text(body.statements().get(i), labels)).append(";\n");
        }
        label(labels.get(body.statements().size()));
        for (Trap trap : body.traps()) {
            out.append("        catch ").append(Names.ofClass(trap.type())).append(" from ")
                    .append(labels.get(trap.from())).append(" to ").append(labels.get(trap.to())).append(" with ")
                    .append(labels.get(trap.handler()))
                    .append(";\n");
        }
    }

    private void label(String label) {
        if (label != null) {
            out.append("     ").append(label).append(":\n");
        }
    }

    /** A statement as it stands in the text, without its semicolon, with the number of a statement as its label. */
    public static String text(Stmt statement) {
        Map<Integer, String> labels = new TreeMap<>();
        statement.jumps().forEach(jump -> labels.put(jump, String.valueOf(jump)));
        return text(statement, labels);
    }

    private static String text(Stmt it, Map<Integer, String> labels) {
        String to = it.to() == null ? "" : Names.ofMember(it.to().name()) + " = ";
        return switch (it.kind()) {
            case THIS -> Names.ofMember(it.to().name()) + " := @this: " + type(it);
            case PARAMETER -> {
                Named.Parameter parameter = (Named.Parameter) it.named();
                yield Names.ofMember(it.to().name()) + " := @parameter" + parameter.number() + ": "
                        + Names.ofType(parameter.type());
            }
            case CAUGHT -> Names.ofMember(it.to().name()) + " := @caughtexception";
            case GOTO -> "goto " + labels.get(it.jumps().get(0));
            case IF -> "if " + word(it, 0) + " " + sign(it) + " " + word(it, 1) + " goto "
                    + labels.get(it.jumps().get(0));
            case SWITCH -> cases(it, labels);
            case RETURN -> it.words().isEmpty() ? "return" : "return " + word(it, 0);
            case THROW -> "throw " + word(it, 0);
            case ENTER -> "entermonitor " + word(it, 0);
            case EXIT -> "exitmonitor " + word(it, 0);
            case STORE -> word(it, 0) + "." + it.named() + " = " + word(it, 1);
            case STORE_STATIC -> it.named() + " = " + word(it, 0);
            case STORE_CELL -> word(it, 0) + "[" + word(it, 1) + "] = " + word(it, 2);
            default -> to + expression(it);
        };
    }

    private static String expression(Stmt it) {
        return switch (it.kind()) {
            case COPY -> word(it, 0);
            case CAST, CONVERT -> "(" + type(it) + ") " + word(it, 0);
            case NEW -> "new " + type(it);
            case NEW_ARRAY -> "newarray (" + type(it) + ")[" + word(it, 0) + "]";
            case NEW_ARRAYS -> arrays(it);
            case NUMERIC -> it.words().size() == 1 ? sign(it) + " " + word(it, 0)
                    : word(it, 0) + " " + sign(it) + " " + word(it, 1);
            case INSTANCE_OF -> word(it, 0) + " instanceof " + type(it);
            case LENGTH -> "lengthof " + word(it, 0);
            case LOAD -> word(it, 0) + "." + it.named();
            case LOAD_STATIC -> it.named().toString();
            case LOAD_CELL -> word(it, 0) + "[" + word(it, 1) + "]";
            case CALL -> call(it);
            case DYNAMIC -> "dynamicinvoke " + Names.literal(((Named.Dynamic) it.named()).name()) + " ("
                    + words(it, 0) + ")";
            default -> throw new IllegalStateException(it.kind().toString());
        };
    }

    private static String call(Stmt it) {
        Named.Method method = (Named.Method) it.named();
        return switch (method.mode()) {
            case STATIC -> "staticinvoke " + method + "(" + words(it, 0) + ")";
            case SPECIAL -> "specialinvoke " + word(it, 0) + "." + method + "(" + words(it, 1) + ")";
            case VIRTUAL -> "virtualinvoke " + word(it, 0) + "." + method + "(" + words(it, 1) + ")";
            case INTERFACE -> "interfaceinvoke " + word(it, 0) + "." + method + "(" + words(it, 1) + ")";
        };
    }

    private static String arrays(Stmt it) {
        Type type = ((Named.OfType) it.named()).type();
        StringBuilder text = new StringBuilder("newmultiarray (").append(Names.ofType(type.getElementType()))
                .append(')');
        it.words().forEach(word -> text.append('[').append(value(word)).append(']'));
        return text.append("[]".repeat(type.getDimensions() - it.words().size())).toString();
    }

    private static String cases(Stmt it, Map<Integer, String> labels) {
        List<Integer> keys = ((Named.Keys) it.named()).keys();
        StringBuilder text = new StringBuilder("lookupswitch(").append(word(it, 0)).append(") {");
        for (int i = 0; i < keys.size(); i++) {
            text.append(" case ").append(keys.get(i)).append(": goto ").append(labels.get(it.jumps().get(i)))
                    .append(';');
        }
        return text.append(" default: goto ").append(labels.get(it.jumps().get(keys.size()))).append("; }").toString();
    }

    private static String sign(Stmt it) {
        return ((Named.Operator) it.named()).sign();
    }

    private static String type(Stmt it) {
        return Names.ofType(((Named.OfType) it.named()).type());
    }

    private static String word(Stmt it, int number) {
        return value(it.words().get(number));
    }

    private static String words(Stmt it, int from) {
        return it.words().subList(from, it.words().size()).stream()
                .map(Printer::value).collect(Collectors.joining(", "));
    }

    private static String value(Value value) {
        return value instanceof Local local ? Names.ofMember(local.name()) : ((Constant) value).spelling();
    }

    private static String joined(List<String> classes) {
        StringJoiner names = new StringJoiner(", ");
        classes.forEach(name -> names.add(Names.ofClass(name)));
        return names.toString();
    }

    private static String modifiers(Map<Integer, String> words, int access) {
        StringBuilder text = new StringBuilder();
        words.forEach((flag, word) -> {
            if ((access & flag) != 0) {
                text.append(word).append(' ');
            }
        });
        return text.toString();
    }

    private static Map<Integer, String> words(Object... pairs) {
        Map<Integer, String> words = new LinkedHashMap<>();
        for (int i = 0; i < pairs.length; i += 2) {
            words.put((Integer) pairs[i], (String) pairs[i + 1]);
        }
        return words;
    }
}
