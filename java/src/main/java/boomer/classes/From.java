package boomer.classes;

import com.fasterxml.jackson.annotation.JsonValue;

/** Where a class of a text comes from. */
public enum From {
    /** The user's own class, with all its bodies. */
    USER,
    /** A class of a library that the user named, with the bodies that a run may reach. */
    LIB,
    /** A class of the running JDK, with the bodies that a run may reach. */
    REAL,
    /** A stub of this project, completed by members that it lacks. */
    STUB,
    /** The header and the members of a class of the JDK, whose bodies are unknown code. */
    GENERATED;

    /** The word that maps and answers have. */
    @JsonValue
    public String word() {
        return name().toLowerCase(java.util.Locale.ROOT);
    }
}
