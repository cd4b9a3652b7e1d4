package boomer.jimple;

import boomer.classes.Names;
import org.objectweb.asm.Type;

/**
 * A constant.
 *
 * @param spelling how it stands in the text
 * @param type its type; null for {@code null}
 */
public record Constant(String spelling, Type type) implements Value {
    private static final Type STRING = Type.getObjectType("java/lang/String");
    private static final Type CLASS = Type.getObjectType("java/lang/Class");
    /** The constant {@code null}. */
    public static final Constant NULL = new Constant("null", null);
    /** The number 0. */
    public static final Constant ZERO = number(0);

    /** A number, of the type of its box. */
    public static Constant number(Number number) {
        Type type = number instanceof Long ? Type.LONG_TYPE
                : number instanceof Float ? Type.FLOAT_TYPE
                : number instanceof Double ? Type.DOUBLE_TYPE : Type.INT_TYPE;
        return new Constant(Names.number(number), type);
    }

    /** A text. */
    public static Constant text(String text) {
        return new Constant(Names.literal(text), STRING);
    }

    /** A class constant. */
    public static Constant ofClass(Type type) {
        return new Constant("class " + Names.literal(type.getDescriptor()), CLASS);
    }
}
