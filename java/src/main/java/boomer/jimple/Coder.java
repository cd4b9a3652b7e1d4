package boomer.jimple;

import org.objectweb.asm.Label;
import org.objectweb.asm.Opcodes;
import org.objectweb.asm.Type;
import org.objectweb.asm.tree.MethodInsnNode;
import org.objectweb.asm.tree.MethodNode;

/** Writes the code of methods that are made here. */
public final class Coder {
    private static final int ROOM = 12;
    private final MethodNode method;

    /** The code of a new method, whose instructions all have this source line. */
    public Coder(int access, String name, String descriptor, int line) {
        method = new MethodNode(Opcodes.ASM9, access, name, descriptor, null, null);
        int words = (Type.getArgumentsAndReturnSizes(descriptor) >> 2) + 1;
        method.maxLocals = words + ROOM;
        method.maxStack = words + ROOM;
        if (line > 0) {
            Label start = new Label();
            method.visitLabel(start);
            method.visitLineNumber(line, start);
        }
    }

    /** The method. */
    public MethodNode method() {
        return method;
    }

    /** A static call. */
    static MethodInsnNode staticCall(String owner, String name, String descriptor, boolean isInterface) {
        return new MethodInsnNode(Opcodes.INVOKESTATIC, owner, name, descriptor, isInterface);
    }

    /** Calls a method of a class. */
    public Coder call(int code, String owner, String name, String descriptor) {
        method.visitMethodInsn(code, owner, name, descriptor, code == Opcodes.INVOKEINTERFACE);
        return this;
    }

    /** One instruction without operands. */
    public Coder op(int code) {
        method.visitInsn(code);
        return this;
    }

    /** One instruction that names a class. */
    public Coder type(int code, String internalName) {
        method.visitTypeInsn(code, internalName);
        return this;
    }

    /** One instruction that names a field. */
    public Coder field(int code, String owner, String name, String descriptor) {
        method.visitFieldInsn(code, owner, name, descriptor);
        return this;
    }

    /** Pushes a constant. */
    public Coder constant(Object value) {
        method.visitLdcInsn(value);
        return this;
    }

    /** Pushes a local. */
    public Coder load(Type type, int slot) {
        method.visitVarInsn(type.getOpcode(Opcodes.ILOAD), slot);
        return this;
    }

    /** Pops into a local. */
    public Coder store(Type type, int slot) {
        method.visitVarInsn(type.getOpcode(Opcodes.ISTORE), slot);
        return this;
    }

    /** Jumps. */
    public Coder jump(int code, Label label) {
        method.visitJumpInsn(code, label);
        return this;
    }

    /** Puts a label here. */
    public Coder label(Label label) {
        method.visitLabel(label);
        return this;
    }

    /** Returns what is on top, or nothing where the type is void. */
    public Coder giveBack(Type type) {
        return op(type.getOpcode(Opcodes.IRETURN));
    }

    /** Makes an object by its constructor without parameters. */
    public Coder make(String internalName) {
        return type(Opcodes.NEW, internalName).op(Opcodes.DUP)
                .call(Opcodes.INVOKESPECIAL, internalName, "<init>", "()V");
    }

    /** Turns what is on top from one type into another, as the factory of lambdas does. */
    public Coder adapt(Type from, Type to) {
        if (from.equals(to)) {
            return this;
        }
        boolean wasReference = Variable.isReference(from);
        if (to == Type.VOID_TYPE) {
            return from == Type.VOID_TYPE ? this : op(from.getSize() == 2 ? Opcodes.POP2 : Opcodes.POP);
        }
        if (wasReference && Variable.isReference(to)) {
            return to.equals(Variable.OBJECT) ? this : type(Opcodes.CHECKCAST, to.getInternalName());
        }
        if (wasReference) {
            return unbox(from, to);
        }
        return Variable.isReference(to) ? box(from) : widen(from, to);
    }

    private Coder box(Type from) {
        Box box = Box.of(from);
        return call(Opcodes.INVOKESTATIC, box.owner(), "valueOf",
                Type.getMethodDescriptor(Type.getObjectType(box.owner()), from));
    }

    private Coder unbox(Type from, Type to) {
        Box box = Box.of(to);
        boolean isOwn = from.getInternalName().equals(box.owner());
        boolean isNumber = to != Type.BOOLEAN_TYPE && to != Type.CHAR_TYPE;
        if (isOwn || !isNumber) {
            if (!isOwn) {
                type(Opcodes.CHECKCAST, box.owner());
            }
            return call(Opcodes.INVOKEVIRTUAL, box.owner(), box.value(), Type.getMethodDescriptor(to));
        }
        Box own = Box.named(from.getInternalName());
        if (own != null) {
            return call(Opcodes.INVOKEVIRTUAL, own.owner(), own.value(), Type.getMethodDescriptor(own.type()))
                    .widen(own.type(), to);
        }
        return type(Opcodes.CHECKCAST, "java/lang/Number")
                .call(Opcodes.INVOKEVIRTUAL, "java/lang/Number", box.value(), Type.getMethodDescriptor(to));
    }

    private Coder widen(Type from, Type to) {
        Type a = Variable.kind(from);
        Type b = Variable.kind(to);
        if (a.equals(b)) {
            return this;
        }
        return op(switch (a.getSort() * 16 + b.getSort()) {
            case Type.INT * 16 + Type.LONG -> Opcodes.I2L;
            case Type.INT * 16 + Type.FLOAT -> Opcodes.I2F;
            case Type.INT * 16 + Type.DOUBLE -> Opcodes.I2D;
            case Type.LONG * 16 + Type.FLOAT -> Opcodes.L2F;
            case Type.LONG * 16 + Type.DOUBLE -> Opcodes.L2D;
            case Type.FLOAT * 16 + Type.DOUBLE -> Opcodes.F2D;
            default -> throw new IllegalStateException(from + " isn't turned into " + to);
        });
    }

    /** The box of a primitive type: its class, and the method that gives the value. */
    private record Box(Type type, String owner, String value) {
        private static final java.util.List<Box> ALL = java.util.List.of(
                new Box(Type.BOOLEAN_TYPE, "java/lang/Boolean", "booleanValue"),
                new Box(Type.CHAR_TYPE, "java/lang/Character", "charValue"),
                new Box(Type.BYTE_TYPE, "java/lang/Byte", "byteValue"),
                new Box(Type.SHORT_TYPE, "java/lang/Short", "shortValue"),
                new Box(Type.INT_TYPE, "java/lang/Integer", "intValue"),
                new Box(Type.LONG_TYPE, "java/lang/Long", "longValue"),
                new Box(Type.FLOAT_TYPE, "java/lang/Float", "floatValue"),
                new Box(Type.DOUBLE_TYPE, "java/lang/Double", "doubleValue"));

        static Box of(Type type) {
            return ALL.stream().filter(box -> box.type.equals(type)).findFirst().orElseThrow();
        }

        static Box named(String owner) {
            return ALL.stream().filter(box -> box.owner.equals(owner)).findFirst().orElse(null);
        }
    }
}
