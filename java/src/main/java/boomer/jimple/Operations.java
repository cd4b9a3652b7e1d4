package boomer.jimple;

import org.objectweb.asm.Opcodes;
import org.objectweb.asm.Type;

/** What the codes of instructions that come in rows say. */
final class Operations {
    private static final Type[] KINDS =
            {Type.INT_TYPE, Type.LONG_TYPE, Type.FLOAT_TYPE, Type.DOUBLE_TYPE, Variable.OBJECT};
    private static final String[] ARITHMETIC = {"+", "-", "*", "/", "%"};
    private static final String[] BITS = {"<<", ">>", ">>>", "&", "|", "^"};
    private static final String[] RELATIONS = {"==", "!=", "<", ">=", ">", "<="};
    private static final Type[] CONVERTED = {
        Type.LONG_TYPE, Type.FLOAT_TYPE, Type.DOUBLE_TYPE, Type.INT_TYPE, Type.FLOAT_TYPE, Type.DOUBLE_TYPE,
        Type.INT_TYPE, Type.LONG_TYPE, Type.DOUBLE_TYPE, Type.INT_TYPE, Type.LONG_TYPE, Type.FLOAT_TYPE,
        Type.BYTE_TYPE, Type.CHAR_TYPE, Type.SHORT_TYPE};
    private static final Type[] ELEMENTS = {Type.BOOLEAN_TYPE, Type.CHAR_TYPE, Type.FLOAT_TYPE, Type.DOUBLE_TYPE,
        Type.BYTE_TYPE, Type.SHORT_TYPE, Type.INT_TYPE, Type.LONG_TYPE};

    private Operations() { }

    /** The kind of what a load or a store of a local moves. */
    static Type ofLocal(int code) {
        return KINDS[code - (code < Opcodes.ISTORE ? Opcodes.ILOAD : Opcodes.ISTORE)];
    }

    /** The kind of what a load of an element gives. */
    static Type ofElement(int code) {
        return code <= Opcodes.AALOAD ? KINDS[code - Opcodes.IALOAD] : Type.INT_TYPE;
    }

    /** The type of the elements that {@code newarray} names. */
    static Type ofArray(int operand) {
        return ELEMENTS[operand - Opcodes.T_BOOLEAN];
    }

    /** The type of what arithmetic gives. */
    static Type ofArithmetic(int code) {
        if (code <= Opcodes.DNEG) {
            return KINDS[(code - Opcodes.IADD) % 4];
        }
        return (code - Opcodes.ISHL) % 2 == 0 ? Type.INT_TYPE : Type.LONG_TYPE;
    }

    static String arithmetic(int code) {
        return code <= Opcodes.DREM ? ARITHMETIC[(code - Opcodes.IADD) / 4] : BITS[(code - Opcodes.ISHL) / 2];
    }

    static String comparison(int code) {
        return switch (code) {
            case Opcodes.LCMP -> "cmp";
            case Opcodes.FCMPL, Opcodes.DCMPL -> "cmpl";
            default -> "cmpg";
        };
    }

    static Type converted(int code) {
        return CONVERTED[code - Opcodes.I2L];
    }

    /** The relation of a jump that compares with 0, or two values. */
    static String relation(int code) {
        return switch (code) {
            case Opcodes.IF_ACMPEQ, Opcodes.IFNULL -> "==";
            case Opcodes.IF_ACMPNE, Opcodes.IFNONNULL -> "!=";
            default -> RELATIONS[code - (code < Opcodes.IF_ICMPEQ ? Opcodes.IFEQ : Opcodes.IF_ICMPEQ)];
        };
    }
}
