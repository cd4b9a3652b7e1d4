package boomer.program;

import java.util.Map;

/** What may be done about a refusal of the program. */
public final class Advice {
    private static final Map<String, String> OF_LINKING = Map.ofEntries(
            Map.entry("DuplicateClass", "the class stands twice among the inputs: drop one"),
            Map.entry("UnknownParent", "a parent or an interface isn't on the class path: add it with -l"),
            Map.entry("CyclicClass", "two versions of a library are mixed: take one"),
            Map.entry("NoEntry", "the class has no `static void main(String[])`: name with -m one that has"),
            Map.entry("DynamicInvoke", "the dynamic call's factory isn't known: write the class that it stands for"),
            Map.entry("Reflection",
                    "reflection isn't analysed: call a method of one's own that does what the call does"),
            Map.entry("Threads", "threads aren't analysed: call `run` of a class that isn't below Thread"),
            Map.entry("RetStatement", "compile for Java 7 or later, which has no subroutines"),
            Map.entry("UnknownClass", "the class isn't on the class path: add it with -l"),
            Map.entry("UnknownField", "the class that is on the class path lacks the field: look for another version"),
            Map.entry("AbstractNew", "an abstract class is made: look for another version of it"),
            Map.entry("UndeclaredCallee",
                    "the class that is on the class path lacks the method: look for another version"),
            Map.entry("BadArguments", "the class files don't fit each other: compile them together"),
            Map.entry("NativeCallee",
                    "a native method is called: write a class with a body for it, and name it with -c"),
            Map.entry("AmbiguousDefault", "two interfaces have the method: give the class a method of its own"));

    private Advice() { }

    /** One sentence. */
    public static String of(Reply.Refused refused) {
        String kind = refused.words().get(0);
        return switch (kind) {
            case "NotLinked" -> OF_LINKING.getOrDefault(refused.words().get(1), "docs/REFUSALS.md says what to do");
            case "OverBudget" -> "the answer demands more nodes: --budget N lets it take more";
            case "TooLong" -> "the text is longer than 16 MiB: take packages out of --real";
            case "NoSuchPlace" -> "no run from the entry reaches the method";
            default -> "this is a mistake of the companion: please tell it";
        };
    }
}
