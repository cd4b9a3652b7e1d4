package boomer.jimple;

import boomer.classes.ClassFile;
import boomer.classes.Classes;
import java.util.HashSet;
import java.util.List;
import java.util.Map;
import java.util.Set;
import org.objectweb.asm.Opcodes;
import org.objectweb.asm.Type;
import org.objectweb.asm.tree.AbstractInsnNode;
import org.objectweb.asm.tree.LdcInsnNode;
import org.objectweb.asm.tree.MethodInsnNode;
import org.objectweb.asm.tree.MethodNode;

/** Rewrites the calls that the machine would look up in another way than the JVM. */
final class Calls {
    private static final String SUPPORT = "boomer/support/";
    private static final String CLASS = "java/lang/Class";
    /** The methods of {@code java.lang.Class} that are calls of {@code boomer.support.Classes}. */
    private static final Map<String, String> OF_CLASS = Map.of(
            "desiredAssertionStatus", "()Z",
            "getName", "()Ljava/lang/String;",
            "getSimpleName", "()Ljava/lang/String;",
            "getTypeName", "()Ljava/lang/String;",
            "isInstance", "(Ljava/lang/Object;)Z",
            "cast", "(Ljava/lang/Object;)Ljava/lang/Object;",
            "isArray", "()Z",
            "isInterface", "()Z",
            "hashCode", "()I",
            "toString", "()Ljava/lang/String;");

    private final ClassFile file;
    private final Classes classes;
    private final Set<String> nest;

    Calls(ClassFile file, Classes classes) {
        this.file = file;
        this.classes = classes;
        this.nest = nest(file, classes);
    }

    void rewrite(MethodNode method) {
        for (AbstractInsnNode node : method.instructions.toArray()) {
            if (node instanceof MethodInsnNode call) {
                rewrite(method, call);
            }
        }
    }

    private void rewrite(MethodNode method, MethodInsnNode call) {
        boolean isVirtual = call.getOpcode() == Opcodes.INVOKEVIRTUAL || call.getOpcode() == Opcodes.INVOKEINTERFACE;
        if (isVirtual && call.owner.startsWith("[") && call.name.equals("clone")) {
            support(call, "Arrays", "(Ljava/lang/Object;)Ljava/lang/Object;");
        } else if (isVirtual && call.owner.equals(CLASS) && call.desc.equals(OF_CLASS.get(call.name))) {
            support(call, "Classes", "(L" + CLASS + ";" + call.desc.substring(1));
        } else if (isVirtual && isPrivate(call)) {
            call.setOpcode(Opcodes.INVOKESPECIAL);
        } else if (call.getOpcode() == Opcodes.INVOKESPECIAL && !call.name.equals("<init>") && isParent(call)) {
            call.owner = file.node().superName;
        } else if (call.getOpcode() == Opcodes.INVOKESTATIC && call.owner.equals("java/lang/Enum")
                && call.name.equals("valueOf")) {
            constantOfEnum(method, call);
        }
    }

    private static void support(MethodInsnNode call, String name, String descriptor) {
        call.setOpcode(Opcodes.INVOKESTATIC);
        call.owner = SUPPORT + name;
        call.desc = descriptor;
        call.itf = false;
    }

    /** Only a class's own methods, and those of its nest, can be called where they are private. */
    private boolean isPrivate(MethodInsnNode call) {
        if (!nest.contains(call.owner)) {
            return false;
        }
        ClassFile owner = call.owner.equals(file.name()) ? file : classes.find(call.owner).orElse(null);
        MethodNode method = owner == null ? null : owner.method(call.name, call.desc);
        return method != null && (method.access & Opcodes.ACC_PRIVATE) != 0;
    }

    /** The classes that may call each other's private methods. */
    private static Set<String> nest(ClassFile file, Classes classes) {
        String host = file.node().nestHostClass == null ? file.name() : file.node().nestHostClass;
        ClassFile top = host.equals(file.name()) ? file : classes.find(host).orElse(null);
        Set<String> nest = new HashSet<>(List.of(host, file.name()));
        if (top != null && top.node().nestMembers != null) {
            nest.addAll(top.node().nestMembers);
        }
        return nest;
    }

    /** Whether a call by {@code invokespecial} names a class above the direct parent. */
    private boolean isParent(MethodInsnNode call) {
        String parent = file.node().superName;
        if (call.itf || call.owner.equals(file.name()) || call.owner.equals(parent)) {
            return false;
        }
        while (parent != null && !parent.equals(call.owner)) {
            parent = classes.find(parent).map(above -> above.node().superName).orElse(null);
        }
        return parent != null;
    }

    private static void constantOfEnum(MethodNode method, MethodInsnNode call) {
        AbstractInsnNode text = before(call);
        AbstractInsnNode type = text == null ? null : before(text);
        if (type instanceof LdcInsnNode constant && constant.cst instanceof Type named && isLoad(text)) {
            method.instructions.set(type, Coder.staticCall(named.getInternalName(), "values",
                    "()[" + named.getDescriptor(), false));
            call.owner = SUPPORT + "Enums";
            call.name = "find";
            call.desc = "([Ljava/lang/Enum;Ljava/lang/String;)Ljava/lang/Enum;";
        }
    }

    private static boolean isLoad(AbstractInsnNode node) {
        return node.getOpcode() == Opcodes.ALOAD || node.getOpcode() == Opcodes.LDC;
    }

    private static AbstractInsnNode before(AbstractInsnNode node) {
        AbstractInsnNode before = node.getPrevious();
        while (before != null && before.getOpcode() < 0) {
            before = before.getPrevious();
        }
        return before;
    }
}
