package boomer.close;

import boomer.classes.ClassFile;
import java.util.Set;
import org.objectweb.asm.ConstantDynamic;
import org.objectweb.asm.Handle;
import org.objectweb.asm.Opcodes;
import org.objectweb.asm.Type;
import org.objectweb.asm.tree.AbstractInsnNode;
import org.objectweb.asm.tree.InvokeDynamicInsnNode;
import org.objectweb.asm.tree.LdcInsnNode;
import org.objectweb.asm.tree.MethodInsnNode;
import org.objectweb.asm.tree.MethodNode;
import org.objectweb.asm.tree.TypeInsnNode;

/** Which bodies the program would refuse by a rule that no class added can change. */
final class Refused {
    private static final String THREAD = "java/lang/Thread";
    private static final Set<String> REFLECTION = Set.of("java/lang/reflect", "java/lang/invoke");

    private final World world;

    Refused(World world) {
        this.world = world;
    }

    /** Why the program refuses a method, or null. */
    String why(MethodNode method) {
        for (AbstractInsnNode node : method.instructions) {
            String why = why(node);
            if (why != null) {
                return why;
            }
        }
        return null;
    }

    private String why(AbstractInsnNode node) {
        if (node instanceof InvokeDynamicInsnNode) {
            return "DynamicInvoke";
        }
        if (node instanceof LdcInsnNode constant && (constant.cst instanceof Handle
                || constant.cst instanceof ConstantDynamic
                || constant.cst instanceof Type type && type.getSort() == Type.METHOD)) {
            return "DynamicInvoke";
        }
        if (node instanceof MethodInsnNode call) {
            return isReflection(call.owner) ? "Reflection" : isThread(call.owner) ? "Threads" : missing(call);
        }
        if (node instanceof TypeInsnNode made && node.getOpcode() == Opcodes.NEW) {
            return isThread(made.desc) ? "Threads" : null;
        }
        return null;
    }

    private String missing(MethodInsnNode call) {
        return call.owner.startsWith("[") || world.find(call.owner).isPresent() ? null : "UnknownClass";
    }

    private static boolean isReflection(String owner) {
        int end = owner.lastIndexOf('/');
        return owner.equals("java/lang/Class") || end > 0 && REFLECTION.contains(owner.substring(0, end));
    }

    private boolean isThread(String owner) {
        String name = owner.startsWith("[") ? null : owner;
        while (name != null && !name.equals(THREAD)) {
            name = world.find(name).map(ClassFile::node).map(node -> node.superName).orElse(null);
        }
        return name != null;
    }
}
