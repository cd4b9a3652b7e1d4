package boomer;

import static org.junit.jupiter.api.Assertions.assertEquals;
import static org.junit.jupiter.api.Assertions.assertFalse;
import static org.junit.jupiter.api.Assertions.assertThrows;
import static org.junit.jupiter.api.Assertions.assertTrue;

import boomer.classes.BadInput;
import boomer.classes.ClassPath;
import boomer.classes.From;
import boomer.close.Closed;
import boomer.close.Depth;
import boomer.close.Library;
import boomer.close.Linking;
import java.nio.charset.StandardCharsets;
import java.util.List;
import org.junit.jupiter.api.Test;

/** Texts that are closed over the JDK link. */
final class CloseTest {
    private static final int KILOBYTE = 1_000;

    private static Closed close(String source, String main, Depth depth) throws Exception {
        Compiled compiled = Compiled.of("M.java", source);
        Library library = new Library(ClassPath.of(compiled.folder().toString()),
                ClassPath.of(Compiled.top().resolve("java/out/stubs").toString()), ClassPath.all(List.of()),
                ClassPath.running(), Library.REAL);
        return Linking.of(library, depth, main, Compiled.program());
    }

    @Test
    void collectionsStayUnderTheirBound() throws Exception {
        Closed closed = close("import java.util.*; class M { public static void main(String[] a) { "
                + "List<String> l = new ArrayList<>(); l.add(\"x\"); Map<String, List<String>> m = new HashMap<>(); "
                + "m.put(l.get(0), l); for (String s : m.keySet()) { System.out.println(s + m); } } }", "M",
                Depth.DEEP);
        assertTrue(closed.text().length < 150 * KILOBYTE, closed.text().length + " bytes");
        assertEquals(0, closed.reach().missing().size());
    }

    @Test
    void unreachedBodiesOfTheLibraryAreNative() throws Exception {
        Closed closed = close("class M { static String getMessage() { return null; } public static void main(String[] a) { "
                + "getMessage(); new Object(); } void u() { } }", "M", Depth.DEEP);
        String text = new String(closed.text(), StandardCharsets.UTF_8);
        assertTrue(text.contains("native java.lang.String getMessage();"), "of a stub, where a call has its name");
        assertFalse(text.contains("getCause"), "no call has this name");
        assertTrue(text.contains("void u() {"), "the user's bodies stand");
        assertTrue(closed.rests().count(From.STUB) > 0);
    }

    @Test
    void anInheritedMainIsCalled() throws Exception {
        Closed closed = close("class M extends P { } class P { public static void main(String[] a) { } }", "M",
                Depth.DEEP);
        assertEquals("boomer.Entry", closed.entry());
    }

    @Test
    void aRefusalOfTheUsersCodeIsToldWithItsLine() {
        Linking.NotLinked refused = assertThrows(Linking.NotLinked.class,
                () -> close("class M { static native void n();\n public static void main(String[] a) {\n n(); } }", "M",
                        Depth.DEEP));
        assertTrue(refused.getMessage().startsWith("M.java:3: refused NotLinked NativeCallee"), refused.getMessage());
        assertEquals(6, refused.status());
        Linking.NotLinked threads = assertThrows(Linking.NotLinked.class,
                () -> close("class M {\n public static void main(String[] a) {\n new Thread().start(); } }", "M",
                        Depth.DEEP));
        assertTrue(threads.getMessage().startsWith("M.java:3: refused NotLinked Threads"), threads.getMessage());
    }

    @Test
    void whatHasNoMainIsAnError() {
        assertThrows(BadInput.class, () -> close("class M { }", "M", Depth.DEEP));
    }
}
