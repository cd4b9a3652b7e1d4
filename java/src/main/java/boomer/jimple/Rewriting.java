package boomer.jimple;

import boomer.classes.ClassFile;
import boomer.classes.Classes;
import java.util.ArrayList;
import java.util.List;
import org.objectweb.asm.Handle;
import org.objectweb.asm.Opcodes;
import org.objectweb.asm.tree.AbstractInsnNode;
import org.objectweb.asm.tree.FieldNode;
import org.objectweb.asm.tree.InvokeDynamicInsnNode;
import org.objectweb.asm.tree.MethodInsnNode;
import org.objectweb.asm.tree.MethodNode;

/**
 * Rewrites what the machine would look up in another way than the JVM, and dynamic calls, in the tree of a class file.
 * Instruction i of the result stands for instruction i of what was read.
 */
public final class Rewriting {
    private static final String FACTORIES = "java/lang/invoke/";

    static final String INITIALIZER = "<clinit>";
    private final ClassFile file;
    private final List<ClassFile> added = new ArrayList<>();
    private final List<MethodNode> members = new ArrayList<>();

    private Rewriting(ClassFile file) {
        this.file = file;
    }

    /**
     * Rewrites a class.
     *
     * @param classes the classes in which called methods are looked up
     * @return the classes that stand for its lambdas, which are rewritten already
     */
    public static List<ClassFile> rewrite(ClassFile file, Classes classes) {
        Rewriting rewriting = new Rewriting(file);
        Calls calls = new Calls(file, classes);
        for (MethodNode method : file.node().methods) {
            rewriting.dynamicCalls(method);
            calls.rewrite(method);
        }
        for (MethodNode member : rewriting.members) {
            calls.rewrite(member);
            file.node().methods.add(member);
        }
        if (!texts(file).isEmpty() && file.method(INITIALIZER, "()V") == null) {
            file.node().methods.add(new Coder(Opcodes.ACC_STATIC, INITIALIZER, "()V", 0).op(Opcodes.RETURN).method());
        }
        for (ClassFile each : rewriting.added) {
            each.node().methods.forEach(new Calls(each, name -> find(name, file, classes))::rewrite);
        }
        return rewriting.added;
    }

    /**
     * The static fields that have a text as their constant. There is no code for these: {@code Walk} puts it in front.
     */
    static List<FieldNode> texts(ClassFile file) {
        return file.node().fields.stream()
                .filter(field -> (field.access & Opcodes.ACC_STATIC) != 0 && field.value instanceof String).toList();
    }

    private static java.util.Optional<ClassFile> find(String name, ClassFile file, Classes classes) {
        return name.equals(file.name()) ? java.util.Optional.of(file) : classes.find(name);
    }

    private void dynamicCalls(MethodNode method) {
        int line = 0;
        for (AbstractInsnNode node : method.instructions.toArray()) {
            if (node instanceof org.objectweb.asm.tree.LineNumberNode number) {
                line = number.line;
            } else if (node instanceof InvokeDynamicInsnNode call) {
                MethodInsnNode by = inPlaceOf(call, line);
                if (by != null) {
                    method.instructions.set(node, by);
                }
            }
        }
    }

    /** The call of what is made for a dynamic call, or null where its factory isn't known. */
    private MethodInsnNode inPlaceOf(InvokeDynamicInsnNode call, int line) {
        Handle factory = call.bsm;
        String name = factory.getName();
        if (factory.getOwner().equals(FACTORIES + "LambdaMetafactory")) {
            ClassFile made = Lambdas.made(file, added.size(), call, line);
            added.add(made);
            return Coder.staticCall(made.name(), Lambdas.MAKE, call.desc, false);
        }
        MethodNode member = null;
        if (factory.getOwner().equals(FACTORIES + "StringConcatFactory")) {
            member = Concats.made(call, members.size(), line);
        } else if (factory.getOwner().equals("java/lang/runtime/ObjectMethods") && name.equals("bootstrap")) {
            member = Records.made(call, members.size(), line);
        }
        if (member == null) {
            return null;
        }
        members.add(member);
        return Coder.staticCall(file.name(), member.name, member.desc, file.isInterface());
    }
}
