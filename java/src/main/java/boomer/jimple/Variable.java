package boomer.jimple;

import org.objectweb.asm.Type;

/**
 * What becomes locals: a slot, a place of the stack at borders, or a value that one instruction makes. Slots and places
 * of the stack are told apart by the kind of what they hold, too: no instruction reads a number that another wrote as a
 * reference.
 *
 * @param number the slot, the depth, or the number of the value
 * @param type the type of a value that one instruction makes; of a slot or a place of the stack a type of its kind
 */
record Variable(Of of, int number, Type type) implements Value {
    /** The type of all references. */
    static final Type OBJECT = Type.getObjectType("java/lang/Object");

    /** The kinds of variables. */
    enum Of { SLOT, STACK, FRESH }

    static Variable slot(int number, Type type) {
        return new Variable(Of.SLOT, number, kind(type));
    }

    static Variable stack(int depth, Type type) {
        return new Variable(Of.STACK, depth, kind(type));
    }

    boolean isSlot() {
        return of == Of.SLOT;
    }

    boolean isFresh() {
        return of == Of.FRESH;
    }

    boolean isReference() {
        return isReference(type);
    }

    static boolean isReference(Type type) {
        return type == null || type.getSort() == Type.OBJECT || type.getSort() == Type.ARRAY;
    }

    /** The type of all values that an instruction can't tell from those of this type; null is a reference. */
    static Type kind(Type type) {
        if (isReference(type)) {
            return OBJECT;
        }
        return switch (type.getSort()) {
            case Type.LONG, Type.FLOAT, Type.DOUBLE -> type;
            default -> Type.INT_TYPE;
        };
    }
}
