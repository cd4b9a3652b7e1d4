package boomer.close;

import boomer.classes.ClassPath;
import java.util.Set;

/**
 * Where the classes of a text come from.
 *
 * @param user the user's classes
 * @param stubs the stubs of this project
 * @param libraries the libraries that the user named
 * @param running the running JDK
 * @param real the packages and classes of the JDK, with dots, that stand with their own bodies
 */
public record Library(ClassPath user, ClassPath stubs, ClassPath libraries, ClassPath running, Set<String> real) {
    /** The packages and classes that are real where nothing else is said. */
    public static final Set<String> REAL = Set.of("java.util", "java.util.function", "java.util.stream",
            "java.lang.Iterable", "java.lang.Comparable", "java.lang.CharSequence", "java.lang.Runnable",
            "java.lang.AutoCloseable", "java.lang.Cloneable", "java.io.Serializable", "java.io.Closeable");

    /** Whether a class of the JDK stands with its own bodies. Exceptions do: they only hand on to their parents. */
    boolean isReal(String internalName) {
        String name = internalName.replace('/', '.');
        int end = name.lastIndexOf('.');
        boolean isException = name.endsWith("Exception") || name.endsWith("Error");
        return end >= 0 && real.contains(name.substring(0, end)) || real.contains(name) || isException;
    }
}
