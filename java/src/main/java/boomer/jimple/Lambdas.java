package boomer.jimple;

import boomer.classes.ClassFile;
import java.util.ArrayList;
import java.util.LinkedHashSet;
import java.util.List;
import java.util.Set;
import org.objectweb.asm.Handle;
import org.objectweb.asm.Opcodes;
import org.objectweb.asm.Type;
import org.objectweb.asm.tree.ClassNode;
import org.objectweb.asm.tree.FieldNode;
import org.objectweb.asm.tree.InvokeDynamicInsnNode;

/**
 * Makes the class that stands for a lambda or a method reference: a field for each captured value, a static method that
 * makes an object of it, and the interface's method with its bridges.
 */
final class Lambdas {
    /** The name of the method that makes the object. */
    static final String MAKE = "make";
    private static final int SERIALIZABLE = 1;
    private static final int MARKERS = 2;
    private static final int BRIDGES = 4;

    private final String name;
    private final InvokeDynamicInsnNode call;
    private final Type[] captured;
    private final int line;

    private Lambdas(String name, InvokeDynamicInsnNode call, int line) {
        this.name = name;
        this.call = call;
        this.captured = Type.getArgumentTypes(call.desc);
        this.line = line;
    }

    /** The class for a call of {@code LambdaMetafactory}. */
    static ClassFile made(ClassFile outer, int number, InvokeDynamicInsnNode call, int line) {
        Lambdas made = new Lambdas(outer.name() + "$$Lambda$" + number, call, line);
        return ClassFile.made(made.node(outer.node()), outer.from());
    }

    private ClassNode node(ClassNode outer) {
        ClassNode node = new ClassNode();
        node.version = Opcodes.V17;
        node.access = Opcodes.ACC_FINAL | Opcodes.ACC_SYNTHETIC;
        node.name = name;
        node.superName = "java/lang/Object";
        node.interfaces = new ArrayList<>(interfaces());
        node.sourceFile = outer.sourceFile;
        node.nestHostClass = outer.nestHostClass == null ? outer.name : outer.nestHostClass;
        for (int i = 0; i < captured.length; i++) {
            node.fields.add(new FieldNode(Opcodes.ACC_PRIVATE | Opcodes.ACC_FINAL, field(i),
                    captured[i].getDescriptor(),
                    null, null));
        }
        node.methods.add(constructor());
        node.methods.add(make());
        for (Type type : types()) {
            node.methods.add(method(type));
        }
        return node;
    }

    private static String field(int number) {
        return "captured" + number;
    }

    private Set<String> interfaces() {
        Set<String> all = new LinkedHashSet<>(List.of(Type.getReturnType(call.desc).getInternalName()));
        if (flag(SERIALIZABLE)) {
            all.add("java/io/Serializable");
        }
        if (flag(MARKERS)) {
            for (int i = 0; i < (Integer) call.bsmArgs[4]; i++) {
                all.add(((Type) call.bsmArgs[5 + i]).getInternalName());
            }
        }
        return all;
    }

    private boolean flag(int flag) {
        return call.bsm.getName().equals("altMetafactory") && ((Integer) call.bsmArgs[3] & flag) != 0;
    }

    /** The types of the interface's method, and of its bridges. */
    private Set<Type> types() {
        Set<Type> all = new LinkedHashSet<>(List.of((Type) call.bsmArgs[0]));
        if (flag(BRIDGES)) {
            int at = 4 + (flag(MARKERS) ? 1 + (Integer) call.bsmArgs[4] : 0);
            for (int i = 0; i < (Integer) call.bsmArgs[at]; i++) {
                all.add((Type) call.bsmArgs[at + 1 + i]);
            }
        }
        return all;
    }

    private org.objectweb.asm.tree.MethodNode constructor() {
        return new Coder(Opcodes.ACC_PRIVATE, "<init>", "()V", line).load(Variable.OBJECT, 0)
                .call(Opcodes.INVOKESPECIAL, "java/lang/Object", "<init>", "()V").op(Opcodes.RETURN).method();
    }

    private org.objectweb.asm.tree.MethodNode make() {
        Coder coder = new Coder(Opcodes.ACC_STATIC, MAKE, call.desc, line).make(name);
        int slot = 0;
        for (int i = 0; i < captured.length; i++) {
            coder.op(Opcodes.DUP).load(captured[i], slot)
                    .field(Opcodes.PUTFIELD, name, field(i), captured[i].getDescriptor());
            slot += captured[i].getSize();
        }
        return coder.op(Opcodes.ARETURN).method();
    }

    private org.objectweb.asm.tree.MethodNode method(Type type) {
        Handle body = (Handle) call.bsmArgs[1];
        Type instantiated = (Type) call.bsmArgs[2];
        Coder coder = new Coder(Opcodes.ACC_PUBLIC, call.name, type.getDescriptor(), line);
        if (body.getTag() == Opcodes.H_NEWINVOKESPECIAL) {
            coder.type(Opcodes.NEW, body.getOwner()).op(Opcodes.DUP);
        }
        List<Type> wanted = wanted(body);
        for (int i = 0; i < captured.length; i++) {
            coder.load(Variable.OBJECT, 0).field(Opcodes.GETFIELD, name, field(i), captured[i].getDescriptor())
                    .adapt(captured[i], wanted.get(i));
        }
        int slot = 1;
        Type[] given = type.getArgumentTypes();
        for (int i = 0; i < given.length; i++) {
            Type each = instantiated.getArgumentTypes()[i];
            coder.load(given[i], slot).adapt(given[i], each).adapt(each, wanted.get(captured.length + i));
            slot += given[i].getSize();
        }
        coder.method().visitMethodInsn(opcode(body), body.getOwner(), body.getName(), body.getDesc(),
                body.isInterface());
        Type result = body.getTag() == Opcodes.H_NEWINVOKESPECIAL ? Type.getObjectType(body.getOwner())
                : Type.getReturnType(body.getDesc());
        return coder.adapt(result, type.getReturnType()).giveBack(type.getReturnType()).method();
    }

    /** The types that the body wants: its receiver's first, where it has one. */
    private List<Type> wanted(Handle body) {
        List<Type> wanted = new ArrayList<>();
        if (body.getTag() != Opcodes.H_INVOKESTATIC && body.getTag() != Opcodes.H_NEWINVOKESPECIAL) {
            wanted.add(Type.getObjectType(body.getOwner()));
        }
        wanted.addAll(List.of(Type.getArgumentTypes(body.getDesc())));
        return wanted;
    }

    private static int opcode(Handle body) {
        return switch (body.getTag()) {
            case Opcodes.H_INVOKESTATIC -> Opcodes.INVOKESTATIC;
            case Opcodes.H_INVOKEVIRTUAL -> Opcodes.INVOKEVIRTUAL;
            case Opcodes.H_INVOKEINTERFACE -> Opcodes.INVOKEINTERFACE;
            default -> Opcodes.INVOKESPECIAL;
        };
    }
}
