package boomer.jimple;

import java.util.ArrayList;
import java.util.List;
import org.objectweb.asm.Handle;
import org.objectweb.asm.Label;
import org.objectweb.asm.Opcodes;
import org.objectweb.asm.Type;
import org.objectweb.asm.tree.InvokeDynamicInsnNode;
import org.objectweb.asm.tree.MethodNode;

/** Makes the methods that stand for {@code equals}, {@code hashCode} and {@code toString} of a record. */
final class Records {
    private static final String OBJECTS = "java/util/Objects";

    private final String owner;
    private final List<Handle> fields = new ArrayList<>();
    private final Coder coder;

    private Records(InvokeDynamicInsnNode call, int number, int line) {
        owner = Type.getArgumentTypes(call.desc)[0].getInternalName();
        for (int i = 2; i < call.bsmArgs.length; i++) {
            fields.add((Handle) call.bsmArgs[i]);
        }
        coder = new Coder(Opcodes.ACC_PRIVATE | Opcodes.ACC_STATIC | Opcodes.ACC_SYNTHETIC, "$$Record$" + number,
                call.desc, line);
    }

    /** The method for a call of {@code ObjectMethods}. */
    static MethodNode made(InvokeDynamicInsnNode call, int number, int line) {
        Records records = new Records(call, number, line);
        return switch (call.name) {
            case "equals" -> records.equals();
            case "hashCode" -> records.hash();
            default -> records.text();
        };
    }

    private Coder get(int slot, Handle field) {
        return coder.load(Variable.OBJECT, slot).field(Opcodes.GETFIELD, owner, field.getName(), field.getDesc());
    }

    private MethodNode equals() {
        Label no = new Label();
        coder.load(Variable.OBJECT, 1).type(Opcodes.INSTANCEOF, owner).jump(Opcodes.IFEQ, no);
        coder.load(Variable.OBJECT, 1).type(Opcodes.CHECKCAST, owner).store(Variable.OBJECT, 2);
        for (Handle field : fields) {
            get(0, field);
            get(2, field);
            switch (Variable.kind(Type.getType(field.getDesc())).getSort()) {
                case Type.INT -> coder.jump(Opcodes.IF_ICMPNE, no);
                case Type.LONG -> coder.op(Opcodes.LCMP).jump(Opcodes.IFNE, no);
                case Type.FLOAT -> coder.op(Opcodes.FCMPL).jump(Opcodes.IFNE, no);
                case Type.DOUBLE -> coder.op(Opcodes.DCMPL).jump(Opcodes.IFNE, no);
                default -> coder.call(Opcodes.INVOKESTATIC, OBJECTS, "equals",
                        "(Ljava/lang/Object;Ljava/lang/Object;)Z")
                        .jump(Opcodes.IFEQ, no);
            }
        }
        return coder.op(Opcodes.ICONST_1).op(Opcodes.IRETURN).label(no).op(Opcodes.ICONST_0).op(Opcodes.IRETURN)
                .method();
    }

    private MethodNode hash() {
        coder.op(Opcodes.ICONST_0);
        for (Handle field : fields) {
            coder.constant(31).op(Opcodes.IMUL);
            get(0, field);
            switch (Variable.kind(Type.getType(field.getDesc())).getSort()) {
                case Type.INT -> { }
                case Type.LONG -> coder.op(Opcodes.L2I);
                case Type.FLOAT -> coder.op(Opcodes.F2I);
                case Type.DOUBLE -> coder.op(Opcodes.D2I);
                default -> coder.call(Opcodes.INVOKESTATIC, OBJECTS, "hashCode", "(Ljava/lang/Object;)I");
            }
            coder.op(Opcodes.IADD);
        }
        return coder.op(Opcodes.IRETURN).method();
    }

    private MethodNode text() {
        Type string = Type.getObjectType("java/lang/String");
        coder.make("java/lang/StringBuilder");
        String before = owner.substring(Math.max(owner.lastIndexOf('/'), owner.lastIndexOf('$')) + 1) + "[";
        for (Handle field : fields) {
            Concats.append(coder.constant(before + field.getName() + "="), string);
            Concats.append(get(0, field), Type.getType(field.getDesc()));
            before = ", ";
        }
        Concats.append(coder.constant(fields.isEmpty() ? before + "]" : "]"), string);
        return Concats.text(coder);
    }
}
