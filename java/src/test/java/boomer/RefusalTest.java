package boomer;

import static org.junit.jupiter.api.Assertions.assertEquals;
import static org.junit.jupiter.api.Assertions.assertInstanceOf;
import static org.junit.jupiter.api.Assertions.assertThrows;
import static org.junit.jupiter.api.Assertions.assertTrue;

import boomer.classes.ClassPath;
import boomer.close.Closed;
import boomer.close.Depth;
import boomer.close.Library;
import boomer.close.Linking;
import boomer.close.Rests;
import boomer.program.Reply;
import java.util.List;
import java.util.Map;
import java.util.TreeMap;
import org.junit.jupiter.api.Test;
import org.junit.jupiter.params.ParameterizedTest;
import org.junit.jupiter.params.provider.MethodSource;
import org.objectweb.asm.ClassWriter;
import org.objectweb.asm.Handle;
import org.objectweb.asm.Label;
import org.objectweb.asm.MethodVisitor;
import org.objectweb.asm.Opcodes;

/**
 * Each refusal that class files can bring about, in the method {@code use} of a class {@code U} that {@code main}
 * calls. In the user's code it is told with its line; a body of a library becomes unknown code, so the text links.
 */
final class RefusalTest {
    private static final String USE = "<U: java.lang.Object use(java.lang.Object)>";
    private static final String MAIN = "<M: void main(java.lang.String[])>";
    private static final int MOST = 16 * 1024 * 1024;

    /**
     * A refusal, and what brings it about.
     *
     * @param result what {@code use} gives back, in line 3
     * @param before the classes with which it was compiled
     * @param after the class {@code D} with which it is closed; none where it is empty
     */
    private record Case(String kind, String result, String before, String after) {
        Map<String, byte[]> files() throws Exception {
            Map<String, byte[]> files = program("return " + result + "; }", before);
            files.remove("D");
            if (!after.isEmpty()) {
                files.putAll(Compiled.of("D.java", after).files());
            }
            if (kind.equals("DynamicInvoke")) {
                files.put("U", dynamic());
            }
            return files;
        }

        @Override
        public String toString() {
            return kind;
        }
    }

    static List<Case> cases() {
        return List.of(new Case("UnknownClass", "new D()", "class D { }", ""),
                new Case("UnknownField", "D.f", "class D { static Object f; }", "class D { }"),
                new Case("AbstractNew", "new D()", "class D { }", "abstract class D { }"),
                new Case("UndeclaredCallee", "D.g()", "class D { static Object g() { return null; } }", "class D { }"),
                new Case("AmbiguousDefault", "new E().g()", "interface D { } class E implements I, D { } "
                        + "interface I { default Object g() { return null; } }",
                        "interface D { default Object g() { return null; } }"),
                new Case("Reflection", "Object.class.getMethods()", "", ""),
                new Case("Threads", "new Thread()", "", ""),
                new Case("DynamicInvoke", "null", "", ""));
    }

    private static Map<String, byte[]> program(String body, String others) throws Exception {
        return new TreeMap<>(Compiled.of("M.java", "class U {\n static Object use(Object o) {\n " + body + " }\n"
                + "class M {\n public static void main(String[] a) {\n  Object o = new Object();\n"
                + "  Object x = U.use(o); } }\n" + others).files());
    }

    /** The class U with a dynamic call whose factory isn't known. */
    private static byte[] dynamic() {
        ClassWriter writer = new ClassWriter(ClassWriter.COMPUTE_MAXS);
        writer.visit(Opcodes.V17, Opcodes.ACC_SUPER, "U", null, "java/lang/Object", null);
        writer.visitSource("M.java", null);
        MethodVisitor method = writer.visitMethod(Opcodes.ACC_STATIC, "use", "(Ljava/lang/Object;)Ljava/lang/Object;",
                null, null);
        Label start = new Label();
        method.visitCode();
        method.visitLabel(start);
        method.visitLineNumber(3, start);
        method.visitInvokeDynamicInsn("make", "()Ljava/lang/Object;", new Handle(Opcodes.H_INVOKESTATIC, "D", "make",
                "(Ljava/lang/invoke/MethodHandles$Lookup;Ljava/lang/String;Ljava/lang/invoke/MethodType;)"
                        + "Ljava/lang/invoke/CallSite;", false));
        method.visitInsn(Opcodes.ARETURN);
        method.visitMaxs(0, 0);
        method.visitEnd();
        writer.visitEnd();
        return writer.toByteArray();
    }

    private static Closed close(Map<String, byte[]> user, Map<String, byte[]> library) throws Exception {
        return Linking.of(new Library(new Made(user), ClassPath.of(Compiled.top().resolve("java/out/stubs").toString()),
                new Made(library), ClassPath.running(), Library.REAL), Depth.DEEP, "M", Compiled.program());
    }

    /** A text of which only M is the user's. */
    private static Closed overLibrary(Map<String, byte[]> files) throws Exception {
        Map<String, byte[]> user = Map.of("M", files.remove("M"));
        return close(user, files);
    }

    private static String told(Map<String, byte[]> user) {
        return assertThrows(Linking.NotLinked.class, () -> close(user, Map.of())).getMessage();
    }

    /** The one unknown method of the user's library. */
    private static Rests.OfMethod unknown(Closed closed) {
        List<Rests.OfMethod> all = closed.rests().methods().stream()
                .filter(each -> each.method().matches("<[DEU]: .*")).toList();
        assertEquals(1, all.size(), all.toString());
        return all.get(0);
    }

    /** What U.use gives back may be what it was given: all that is kept comes out of unknown code. */
    private static void keepsWhatItIsGiven(Closed closed) throws Exception {
        int end = closed.map().method(MAIN).statements().size() - 1;
        Reply reply = Compiled.program().ask(closed.text(),
                List.of("points-to", closed.entry(), MAIN, String.valueOf(end), "x", "100000"));
        Reply.PointsTo sites = assertInstanceOf(Reply.PointsTo.class, reply, reply.lines().toString());
        assertTrue(sites.sites().stream().anyMatch(site -> site.text().startsWith(MAIN + " ")),
                reply.lines().toString());
    }

    @ParameterizedTest
    @MethodSource("cases")
    void inTheUsersCodeItIsToldWithItsLine(Case it) throws Exception {
        String message = told(it.files());
        assertTrue(message.startsWith("M.java:3: refused NotLinked " + it + " " + USE), message);
    }

    @ParameterizedTest
    @MethodSource("cases")
    void aBodyOfALibraryBecomesUnknownCode(Case it) throws Exception {
        Closed closed = overLibrary(it.files());
        assertEquals(new Rests.OfMethod(USE, it.toString()), unknown(closed));
        keepsWhatItIsGiven(closed);
    }

    @Test
    void aNativeMethodOfALibraryIsUnknownCode() throws Exception {
        Map<String, byte[]> files = program("return D.g(o); }", "class D { static native Object g(Object o); }");
        Closed closed = overLibrary(files);
        assertEquals(new Rests.OfMethod("<D: java.lang.Object g(java.lang.Object)>", "it is native"), unknown(closed));
        keepsWhatItIsGiven(closed);
    }

    @Test
    void aParentThatIsntThereIsNamed() throws Exception {
        Map<String, byte[]> files = program("return new E(); }", "class D { } class E extends D { }");
        files.remove("D");
        String message = told(files);
        assertTrue(message.startsWith("refused NotLinked UnknownParent E"), message);
        assertTrue(message.endsWith("; not there: D"), message);
        String ofLibrary = assertThrows(Linking.NotLinked.class, () -> overLibrary(files)).getMessage();
        assertEquals(message, ofLibrary);
    }

    @Test
    void aClassThatIsntThereIsNamed() throws Exception {
        Map<String, byte[]> files = program("return new D(); }", "class D { }");
        files.remove("D");
        String message = told(files);
        assertTrue(message.endsWith("; not there: D"), message);
    }

    @Test
    void aTextThatIsTooLongIsTold() throws Exception {
        int length = 60_000;
        String body = "f = K; ".repeat(MOST / length + 1) + "return K; } static Object f; static final String K = \""
                + "x".repeat(length) + "\";";
        String message = told(program(body, ""));
        assertTrue(message.startsWith("refused TooLong"), message);
        assertTrue(message.contains("take packages out of --real"), message);
    }
}
