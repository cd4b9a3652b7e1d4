package boomer.close;

import boomer.classes.ClassFile;
import boomer.classes.From;
import java.util.HashSet;
import java.util.Set;
import org.objectweb.asm.Opcodes;
import org.objectweb.asm.tree.ClassNode;
import org.objectweb.asm.tree.FieldNode;
import org.objectweb.asm.tree.MethodNode;

/** Gives a stub the members that it lacks, and a class of the JDK bodies of unknown code. */
final class Completing {
    private static final int NO_BODY = Opcodes.ACC_ABSTRACT;

    private Completing() { }

    /** Adds to a stub each member of the real class, but for private ones, that it hasn't itself. */
    static void complete(ClassFile stub, ClassFile real, World world) {
        ClassNode node = stub.node();
        Set<String> has = new HashSet<>();
        node.fields.forEach(field -> has.add(field.name + " " + field.desc));
        node.methods.forEach(method -> has.add(method.name + method.desc));
        for (FieldNode field : real.node().fields) {
            if (isOpen(field.access) && has.add(field.name + " " + field.desc)) {
                node.fields.add(field);
            }
        }
        for (MethodNode method : real.node().methods) {
            boolean isInherited = !method.name.startsWith("<") && inherits(node.superName, method, world);
            boolean isInitializer = method.name.equals("<clinit>");
            if (isOpen(method.access) && !isInherited && !isInitializer && has.add(method.name + method.desc)) {
                node.methods.add(method);
                forget(stub, method, world, "the stub lacks it");
            }
        }
    }

    /** Leaves of a class its header and the members that aren't private, with bodies of unknown code. */
    static void onlyHeader(ClassFile file, World world) {
        ClassNode node = file.node();
        node.fields.removeIf(field -> !isOpen(field.access));
        node.methods.removeIf(method -> !isOpen(method.access) || method.name.equals("<clinit>"));
        node.methods.forEach(method -> forget(file, method, world, "its class is generated"));
        world.unknown().initializer(node);
    }

    /**
     * Whether a stub above has a body of the method: then the stub below means that one. Of those of {@code Object}
     * this holds for {@code equals}, {@code hashCode} and {@code toString}.
     */
    private static boolean inherits(String parent, MethodNode method, World world) {
        ClassFile above = parent == null ? null : world.find(parent).orElse(null);
        if (above == null) {
            return false;
        }
        MethodNode found = above.method(method.name, method.desc);
        if (found == null || (found.access & NO_BODY) != 0) {
            return inherits(above.node().superName, method, world);
        }
        boolean isOfObject = above.name().equals("java/lang/Object");
        return above.from() == From.STUB && (!isOfObject || Unknown.OF_OBJECT.contains(method.name + method.desc));
    }

    private static boolean isOpen(int access) {
        return (access & Opcodes.ACC_PRIVATE) == 0;
    }

    private static void forget(ClassFile file, MethodNode method, World world, String why) {
        if ((method.access & NO_BODY) == 0) {
            world.makeUnknown(file, method, why);
        }
    }
}
