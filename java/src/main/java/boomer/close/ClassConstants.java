package boomer.close;

import boomer.classes.ClassFile;
import java.util.LinkedHashSet;
import java.util.List;
import java.util.Set;
import org.objectweb.asm.Opcodes;
import org.objectweb.asm.Type;
import org.objectweb.asm.tree.AbstractInsnNode;
import org.objectweb.asm.tree.InsnList;
import org.objectweb.asm.tree.InsnNode;
import org.objectweb.asm.tree.JumpInsnNode;
import org.objectweb.asm.tree.LabelNode;
import org.objectweb.asm.tree.LdcInsnNode;
import org.objectweb.asm.tree.MethodInsnNode;
import org.objectweb.asm.tree.MethodNode;

/**
 * The class constants of a text. A class has one object on a JVM, whether it comes from a constant or from
 * {@code getClass}.
 */
final class ClassConstants {
    private ClassConstants() { }

    /**
     * Lets {@code getClass} give back each constant of the bodies that a run may reach, beside what it gives back
     * anyway.
     */
    static void give(MethodNode getClass, List<ClassFile> files, Reach reach) {
        Set<Type> all = new LinkedHashSet<>();
        for (ClassFile file : files) {
            for (MethodNode method : file.node().methods) {
                if (reach.has(method)) {
                    method.instructions.forEach(node -> note(node, all));
                }
            }
        }
        InsnList code = new InsnList();
        for (Type each : all) {
            LabelNode behind = new LabelNode();
            code.add(new InsnNode(Opcodes.ICONST_0));
            code.add(new JumpInsnNode(Opcodes.IFEQ, behind));
            code.add(new LdcInsnNode(each));
            code.add(new InsnNode(Opcodes.ARETURN));
            code.add(behind);
        }
        getClass.instructions.insert(code);
    }

    /** A constant that is only asked whether assertions are on goes nowhere else. */
    private static void note(AbstractInsnNode node, Set<Type> all) {
        boolean isAsked = node.getNext() instanceof MethodInsnNode call && call.name.equals("desiredAssertionStatus");
        if (!isAsked && node instanceof LdcInsnNode constant && constant.cst instanceof Type type
                && type.getSort() != Type.METHOD) {
            all.add(type);
        }
    }
}
