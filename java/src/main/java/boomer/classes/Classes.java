package boomer.classes;

import java.util.Optional;

/** Classes by their internal names. */
@FunctionalInterface
public interface Classes {
    /** The class of this internal name, where it is known. */
    Optional<ClassFile> find(String internalName);
}
