package boomer.jimple;

import org.objectweb.asm.Opcodes;
import org.objectweb.asm.Type;
import org.objectweb.asm.tree.InvokeDynamicInsnNode;
import org.objectweb.asm.tree.MethodNode;

/** Makes the method that stands for a concatenation of texts: the calls of a {@code StringBuilder}. */
final class Concats {
    private static final String BUILDER = "java/lang/StringBuilder";
    private static final char ARGUMENT = '\1';
    private static final char CONSTANT = '\2';

    private Concats() { }

    /** The method for a call of {@code StringConcatFactory}. */
    static MethodNode made(InvokeDynamicInsnNode call, int number, int line) {
        Coder coder = new Coder(Opcodes.ACC_PRIVATE | Opcodes.ACC_STATIC | Opcodes.ACC_SYNTHETIC, "$$Concat$" + number,
                call.desc, line).make(BUILDER);
        Type[] types = Type.getArgumentTypes(call.desc);
        String recipe = call.bsm.getName().equals("makeConcat") ? String.valueOf(ARGUMENT).repeat(types.length)
                : (String) call.bsmArgs[0];
        StringBuilder text = new StringBuilder();
        int argument = 0;
        int slot = 0;
        int constant = 1;
        for (char c : recipe.toCharArray()) {
            if (c == CONSTANT && call.bsmArgs[constant] instanceof String) {
                text.append(call.bsmArgs[constant++]);
            } else if (c == CONSTANT) {
                flush(coder, text);
                append(coder.constant(call.bsmArgs[constant++]), Variable.OBJECT);
            } else if (c == ARGUMENT) {
                flush(coder, text);
                append(coder.load(types[argument], slot), types[argument]);
                slot += types[argument++].getSize();
            } else {
                text.append(c);
            }
        }
        flush(coder, text);
        return text(coder);
    }

    /** Appends what is on top to the builder below it. */
    static void append(Coder coder, Type type) {
        String descriptor = switch (type.getSort()) {
            case Type.BYTE, Type.SHORT -> "I";
            case Type.ARRAY -> Variable.OBJECT.getDescriptor();
            case Type.OBJECT -> type.getInternalName().equals("java/lang/String") ? type.getDescriptor()
                    : Variable.OBJECT.getDescriptor();
            default -> type.getDescriptor();
        };
        coder.call(Opcodes.INVOKEVIRTUAL, BUILDER, "append", "(" + descriptor + ")L" + BUILDER + ";");
    }

    /** Gives back the text of the builder on top. */
    static MethodNode text(Coder coder) {
        return coder.call(Opcodes.INVOKEVIRTUAL, BUILDER, "toString", "()Ljava/lang/String;").op(Opcodes.ARETURN)
                .method();
    }

    private static void flush(Coder coder, StringBuilder text) {
        if (text.length() > 0) {
            append(coder.constant(text.toString()), Type.getObjectType("java/lang/String"));
            text.setLength(0);
        }
    }
}
