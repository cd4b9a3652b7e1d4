package boomer.jimple;

import org.objectweb.asm.Type;

/**
 * A local of a body.
 *
 * @param name its name, not yet spelled
 * @param type the join of the types of its definitions
 * @param variable the source variable that it is, or null
 */
public record Local(String name, Type type, String variable) implements Value {
    /** Whether it holds references. */
    public boolean isReference() {
        return type.getSort() == Type.OBJECT || type.getSort() == Type.ARRAY;
    }
}
