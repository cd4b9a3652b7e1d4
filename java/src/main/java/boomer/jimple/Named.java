package boomer.jimple;

import boomer.classes.Names;
import java.util.List;
import org.objectweb.asm.Type;

/** What a statement names beside its operands. */
public sealed interface Named {
    /** Nothing. */
    record Nothing() implements Named { }

    /** A type. */
    record OfType(Type type) implements Named { }

    /** A parameter and its type. */
    record Parameter(int number, Type type) implements Named { }

    /** An operator of numbers, or a relation. */
    record Operator(String sign) implements Named { }

    /** The keys of a switch, in order, without the default. */
    record Keys(List<Integer> keys) implements Named { }

    /** A field. */
    record Field(String owner, String name, String descriptor) implements Named {
        @Override
        public String toString() {
            return Names.ofField(owner, name, descriptor);
        }
    }

    /** A method, as a call names it. */
    record Method(Mode mode, String owner, String name, String descriptor) implements Named {
        @Override
        public String toString() {
            return Names.ofMethod(owner, name, descriptor);
        }
    }

    /** What a dynamic call or constant says of itself. */
    record Dynamic(String name, String descriptor) implements Named { }

    /** How a call finds its method. */
    enum Mode { STATIC, SPECIAL, VIRTUAL, INTERFACE }

    /** Nothing. */
    Named NOTHING = new Nothing();
}
