package boomer.close;

import boomer.classes.ClassFile;
import boomer.classes.From;
import boomer.jimple.Body;
import boomer.jimple.Kind;
import boomer.jimple.Named;
import boomer.jimple.Stmt;
import java.util.LinkedHashMap;
import java.util.Map;
import java.util.Set;
import org.objectweb.asm.Opcodes;
import org.objectweb.asm.Type;
import org.objectweb.asm.tree.MethodNode;

/**
 * Gives calls of stubs copies of their own. A copy does what its method does. But what it makes has a site of its own,
 * and what it calls back is what this call handed in, so two iterators, or two lambdas that are mapped, aren't mixed.
 */
final class Copies {
    private static final int DEPTH = 3;
    private static final Set<String> CALLED_BACK = Set.of("java/util/Comparator", "java/util/stream/Collector",
            "java/lang/Runnable", "java/util/concurrent/Callable");

    private final Reach reach;
    private final Targets targets;
    private final Map<MethodNode, Body> bodies = new LinkedHashMap<>();

    Copies(Reach reach, Targets targets) {
        this.reach = reach;
        this.targets = targets;
    }

    /** The copies and their bodies. */
    Map<MethodNode, Body> bodies() {
        return bodies;
    }

    /** A body, of which each call of a stub has a copy of its own where that tells anything apart. */
    Body calling(ClassFile file, Body body) {
        return file.from() == From.USER ? calling(body, DEPTH) : body;
    }

    private Body calling(Body body, int depth) {
        return depth == 0 ? body : body.with(statement -> calling(statement, depth));
    }

    private Stmt calling(Stmt statement, int depth) {
        if (statement.kind() != Kind.CALL) {
            return statement;
        }
        Named.Method call = (Named.Method) statement.named();
        Targets.Target target = targets.of(call).orElse(null);
        if (target == null || !isCopied(target)) {
            return statement;
        }
        MethodNode method = target.method();
        MethodNode copy = new MethodNode(Opcodes.ASM9, method.access, method.name + "$" + bodies.size(), method.desc,
                null, null);
        bodies.put(copy, null);
        target.owner().node().methods.add(copy);
        bodies.put(copy, calling(reach.body(method), depth - 1));
        boolean isStatic = (method.access & Opcodes.ACC_STATIC) != 0;
        return statement.naming(new Named.Method(isStatic ? Named.Mode.STATIC : Named.Mode.SPECIAL,
                target.owner().name(),
                copy.name, copy.desc));
    }

    private boolean isCopied(Targets.Target target) {
        return target.owner().from() == From.STUB && !target.owner().isInterface()
                && !target.method().name.startsWith("<")
                && !target.owner().name().equals("java/lang/Object") && !Closed.isSupport(target.owner())
                && (isCallingBack(target.method())
                        || reach.body(target.method()).statements().stream().anyMatch(this::isMaking));
    }

    private static boolean isCallingBack(MethodNode method) {
        for (Type type : Type.getArgumentTypes(method.desc)) {
            if (type.getSort() == Type.OBJECT && (CALLED_BACK.contains(type.getInternalName())
                    || type.getInternalName().startsWith("java/util/function/"))) {
                return true;
            }
        }
        return false;
    }

    /** Whether a statement makes an object that may hold others. */
    private boolean isMaking(Stmt statement) {
        return statement.kind() == Kind.NEW_ARRAY
                || statement.kind() == Kind.NEW
                        && isHolding(((Named.OfType) statement.named()).type().getInternalName());
    }

    private static boolean isHolding(String made) {
        return !made.startsWith("java/lang/") && !made.endsWith("Exception");
    }
}
