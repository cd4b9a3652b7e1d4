package boomer.jimple;

import org.objectweb.asm.Type;

/** What a statement reads: a local or a constant. */
public sealed interface Value permits Local, Constant, Variable {
    /** Its type; null for the constant {@code null}. */
    Type type();
}
