package boomer.support;

/** Stands for {@code Enum.valueOf}. */
public final class Enums {
    private Enums() { }

    /** One of the constants, or an exception. */
    public static Enum<?> find(Enum<?>[] constants, String name) {
        for (Enum<?> each : constants) {
            if (each.name() == name) {
                return each;
            }
        }
        throw new IllegalArgumentException(name);
    }
}
