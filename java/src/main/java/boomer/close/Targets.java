package boomer.close;

import boomer.classes.ClassFile;
import boomer.jimple.Kind;
import boomer.jimple.Named;
import boomer.jimple.Stmt;
import java.util.HashMap;
import java.util.LinkedHashSet;
import java.util.List;
import java.util.Map;
import java.util.Optional;
import java.util.Set;
import org.objectweb.asm.Opcodes;
import org.objectweb.asm.tree.MethodNode;

/**
 * The one method that a call may run. Where class hierarchy analysis leaves one target of a call on an object, a
 * special call of it has the same runs, and the program need not ask what the receiver holds.
 */
final class Targets {
    private final Reach reach;
    private final Map<Named.Method, Optional<Target>> known = new HashMap<>();

    /** A method with a body, and the class that declares it. */
    record Target(ClassFile owner, MethodNode method) { }

    Targets(Reach reach) {
        this.reach = reach;
    }

    /** The statement, or a special call of the one method that it may run. */
    Stmt decided(Stmt statement) {
        if (statement.kind() != Kind.CALL) {
            return statement;
        }
        Named.Method call = (Named.Method) statement.named();
        boolean isOnObject = call.mode() == Named.Mode.VIRTUAL || call.mode() == Named.Mode.INTERFACE;
        Target only = isOnObject ? of(call).orElse(null) : null;
        return only == null || only.owner.isInterface() ? statement : statement.naming(
                new Named.Method(Named.Mode.SPECIAL, only.owner.name(), call.name(), call.descriptor()));
    }

    /** The one method that a call may run, where there is one and it is known which. */
    Optional<Target> of(Named.Method call) {
        return known.computeIfAbsent(call, this::looked);
    }

    private Optional<Target> looked(Named.Method call) {
        boolean isOnObject = call.mode() == Named.Mode.VIRTUAL || call.mode() == Named.Mode.INTERFACE;
        Set<Target> found = new LinkedHashSet<>();
        if (!isOnObject) {
            ClassFile owner = reach.named(call.owner());
            found.add(owner == null ? null : inherited(owner, call));
        }
        for (ClassFile each : isOnObject ? reach.instantiable(call.owner()) : List.<ClassFile>of()) {
            found.add(inherited(each, call));
        }
        Target only = found.size() == 1 ? found.iterator().next() : null;
        return only != null && reach.has(only.method) ? Optional.of(only) : Optional.empty();
    }

    /** What a look-up finds in a class or a class above it; null where it goes on among interfaces. */
    private Target inherited(ClassFile file, Named.Method call) {
        ClassFile each = file;
        while (each != null) {
            MethodNode method = each.method(call.name(), call.descriptor());
            if (method != null) {
                return (method.access & Opcodes.ACC_ABSTRACT) == 0 ? new Target(each, method) : null;
            }
            each = each.node().superName == null ? null : reach.named(each.node().superName);
        }
        return null;
    }
}
