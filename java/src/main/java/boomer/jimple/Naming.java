package boomer.jimple;

import java.util.ArrayList;
import java.util.Comparator;
import java.util.HashMap;
import java.util.HashSet;
import java.util.LinkedHashMap;
import java.util.List;
import java.util.Map;
import java.util.Set;
import org.objectweb.asm.Type;
import org.objectweb.asm.tree.LocalVariableNode;
import org.objectweb.asm.tree.MethodNode;

/** Gives each web of a draft its local: a name and a type. */
final class Naming {
    private final MethodNode method;
    private final Instructions code;
    private final Draft draft;
    private final Webs webs;
    private final Map<Integer, Type> types = new HashMap<>();
    private final Map<Integer, Local> locals = new LinkedHashMap<>();

    private Naming(MethodNode method, Instructions code, Draft draft, Webs webs) {
        this.method = method;
        this.code = code;
        this.draft = draft;
        this.webs = webs;
    }

    /** The local of each web. */
    static Map<Integer, Local> of(MethodNode method, Instructions code, Draft draft, Webs webs) {
        Naming naming = new Naming(method, code, draft, webs);
        naming.findTypes();
        naming.findNames();
        return naming.locals;
    }

    /** The type of a web is the join of those of its definitions, from below. */
    private void findTypes() {
        boolean changes = true;
        while (changes) {
            changes = false;
            for (int at = 0; at < draft.lines().size(); at++) {
                Line line = draft.lines().get(at);
                if (line.to == null) {
                    continue;
                }
                Type type = defined(at, line);
                int web = webs.defined(at);
                Type joined = join(types.get(web), type);
                if (joined != null && !joined.equals(types.get(web))) {
                    types.put(web, joined);
                    changes = true;
                }
            }
        }
    }

    /** The type of what a line defines, or null where it isn't known yet, or is that of null. */
    private Type defined(int at, Line line) {
        return switch (line.kind) {
            case COPY -> typeOf(at, 0);
            case THIS, NEW, CAST, CONVERT, NEW_ARRAYS -> ((Named.OfType) line.named).type();
            case PARAMETER -> ((Named.Parameter) line.named).type();
            case NEW_ARRAY -> Type.getType("[" + ((Named.OfType) line.named).type().getDescriptor());
            case LOAD, LOAD_STATIC -> Type.getType(((Named.Field) line.named).descriptor());
            case CALL -> Type.getReturnType(((Named.Method) line.named).descriptor());
            case LOAD_CELL -> element(typeOf(at, 0), line.to.type());
            default -> line.to.type();
        };
    }

    private Type typeOf(int at, int word) {
        Value value = draft.lines().get(at).words.get(word);
        return value instanceof Variable ? types.get(webs.used(at, word)) : value.type();
    }

    private static Type element(Type array, Type otherwise) {
        if (!Variable.isReference(otherwise) || array == null) {
            return Variable.isReference(otherwise) ? null : otherwise;
        }
        return array.getSort() == Type.ARRAY ? Type.getType(array.getDescriptor().substring(1)) : Variable.OBJECT;
    }

    private static Type join(Type a, Type b) {
        if (a == null || b == null || a.equals(b)) {
            return a == null ? b : a;
        }
        return Variable.kind(a).equals(Variable.kind(b)) ? Variable.kind(a) : Variable.OBJECT;
    }

    private void findNames() {
        Map<Integer, String> variables = new LinkedHashMap<>();
        for (int at = 0; at < draft.lines().size(); at++) {
            Line line = draft.lines().get(at);
            if (line.to != null) {
                String variable = line.to.isSlot() ? variable(line.to, line.storedAt + 1) : null;
                variables.merge(webs.defined(at), variable == null ? "" : variable,
                        (old, name) -> old.isEmpty() ? name : old);
                types.putIfAbsent(webs.defined(at), Variable.kind(line.to.type()));
            }
        }
        Set<String> taken = new HashSet<>();
        Map<Character, Integer> counts = new HashMap<>();
        variables.forEach((web, variable) -> {
            Type type = types.get(web);
            String name = variable.isEmpty() ? temporary(type, counts, taken) : unused(variable, taken);
            locals.put(web, new Local(name, type, variable.isEmpty() ? null : variable));
        });
    }

    /** The source variable that a slot is before this instruction, or null. */
    private String variable(Variable slot, int instruction) {
        if (slot.number() == 0 && (method.access & org.objectweb.asm.Opcodes.ACC_STATIC) == 0 && instruction == 0) {
            return "this";
        }
        if (method.localVariables == null) {
            return null;
        }
        List<LocalVariableNode> found = new ArrayList<>();
        for (LocalVariableNode each : method.localVariables) {
            if (each.index == slot.number() && code.number(each.start) <= instruction
                    && (instruction < code.number(each.end) || instruction == code.number(each.start))
                    && Variable.kind(Type.getType(each.desc)).equals(slot.type())) {
                found.add(each);
            }
        }
        return found.stream().max(Comparator.comparing(each -> code.number(each.start))).map(each -> each.name)
                .orElse(null);
    }

    private static String unused(String variable, Set<String> taken) {
        String name = variable;
        for (int i = 2; !taken.add(name); i++) {
            name = variable + "#" + i;
        }
        return name;
    }

    private static String temporary(Type type, Map<Character, Integer> counts, Set<String> taken) {
        char letter = Variable.isReference(type) ? 'r'
                : Character.toLowerCase(Variable.kind(type).getDescriptor().charAt(0));
        while (true) {
            String name = "$" + letter + counts.merge(letter, 1, Integer::sum);
            if (taken.add(name)) {
                return name;
            }
        }
    }
}
