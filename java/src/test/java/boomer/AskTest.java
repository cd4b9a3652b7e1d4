package boomer;

import static org.junit.jupiter.api.Assertions.assertEquals;
import static org.junit.jupiter.api.Assertions.assertTrue;

import boomer.cli.Main;
import com.fasterxml.jackson.databind.JsonNode;
import com.fasterxml.jackson.databind.ObjectMapper;
import java.io.ByteArrayOutputStream;
import java.io.PrintStream;
import java.nio.file.Files;
import java.nio.file.Path;
import java.util.ArrayList;
import java.util.List;
import java.util.Set;
import java.util.TreeSet;
import org.junit.jupiter.api.BeforeAll;
import org.junit.jupiter.api.Test;

/** Answers about small programs, by the commands as users call them. The lines are counted by hand. */
final class AskTest {
    private static final String SOURCE = """
            import java.util.*;
            public class M {
              static class A { Object v; }
              static class B extends A { }
              static Object id(Object o) { return o; }
              public static void main(String[] args) {
                A a = new A();
                A b = new B();
                Object x = id(a);
                Object y = id(b);
                List<Object> l = new ArrayList<>();
                List<Object> k = new LinkedList<>();
                l.add(x);
                k.add(y);
                Object z = l.get(0);
                for (Object q : k) {
                  System.out.println(q);
                }
                Map<String, A> m = new HashMap<>();
                m.put("k" + z, a);
                A w = m.get("k");
                a.v = b;
                Object[] c = new Object[1];
                c[0] = y;
                java.util.function.Supplier<Object> s = () -> x;
                Object r = s.get();
              }
              static void unused(Object u) {
                u.toString();
              }
            }
            """;
    private static Compiled program;

    /** What a command wrote, and how it ended. */
    private record Ran(int status, String out, String err) { }

    @BeforeAll
    static void compile() {
        program = Compiled.of("M.java", SOURCE);
    }

    private static Ran ask(String... words) {
        List<String> all = new ArrayList<>(List.of("ask", "-c", program.folder().toString(), "-m", "M", "--sources",
                program.folder().toString()));
        all.addAll(List.of(words));
        return run(all);
    }

    private static synchronized Ran run(List<String> words) {
        PrintStream out = System.out;
        PrintStream err = System.err;
        ByteArrayOutputStream said = new ByteArrayOutputStream();
        ByteArrayOutputStream warned = new ByteArrayOutputStream();
        try {
            System.setOut(new PrintStream(said, true));
            System.setErr(new PrintStream(warned, true));
            int status = Main.run(words.toArray(new String[0]));
            return new Ran(status, said.toString(), warned.toString());
        } finally {
            System.setOut(out);
            System.setErr(err);
        }
    }

    private static void holds(String place, String variable, Set<Integer> lines) throws Exception {
        Path json = Files.createTempFile("answer", ".json");
        Ran ran = ask(place, variable, "--json", json.toString());
        assertEquals(0, ran.status, ran.err);
        Set<Integer> found = new TreeSet<>();
        for (JsonNode answer : new ObjectMapper().readTree(json.toFile())) {
            for (JsonNode site : answer.get("sites")) {
                if (!site.get("kind").asText().equals("raise")) {
                    found.add(site.get("line").asInt());
                }
            }
        }
        assertEquals(new TreeSet<>(lines), found, ran.out);
    }

    @Test
    void callsAreToldApart() throws Exception {
        holds("M.java:9", "x", Set.of(7));
        holds("M.java:10", "y", Set.of(8));
        holds("M.java:5", "o", Set.of(7, 8));
    }

    @Test
    void collectionsAreToldApart() throws Exception {
        holds("M.java:15", "z", Set.of(7));
        holds("M.java:16", "q", Set.of(8));
        holds("M.java:21", "w", Set.of(7));
    }

    @Test
    void lambdasGiveWhatTheyCaught() throws Exception {
        holds("M.java:26", "r", Set.of(7));
        holds("M.java:25", "s", Set.of(25));
    }

    @Test
    void pathsGoAlongFieldsAndElements() throws Exception {
        holds("M.java:27", "a.v", Set.of(8));
        holds("M.java:27", "c[]", Set.of(8));
    }

    @Test
    void twoVariablesAreAliasesOrNot() {
        assertTrue(ask("M.java:22", "a", "x").out.contains("they may hold one object"));
        assertTrue(ask("M.java:22", "a", "b").out.contains("they never hold one object"));
    }

    @Test
    void allVariablesOfAFileAreAnswered() {
        Ran ran = ask("M.java", "--all");
        assertEquals(0, ran.status, ran.err);
        assertTrue(ran.out.contains("  z   ("), ran.out);
        assertTrue(!ran.out.contains("  u   ("), ran.out);
    }

    @Test
    void whatIsntThereIsNamed() {
        Ran line = ask("M.java:2000", "x");
        assertEquals(2, line.status);
        assertTrue(line.err.contains("has no code; the last line that has some is 30"), line.err);
        Ran empty = ask("M.java:1", "x");
        assertTrue(empty.err.contains("has no code; the next line that has some is 2"), empty.err);
        Ran variable = ask("M.java:15", "zz");
        assertTrue(variable.err.contains("has no variable zz; near are z,"), variable.err);
        Ran file = ask("N.java:1", "x");
        assertTrue(file.err.contains("no class that a run may reach is of this source file; near are M.java"),
                file.err);
        Ran unreached = ask("M.java:29", "u");
        assertTrue(unreached.err.contains("no run from the entry reaches <M: void unused(java.lang.Object)>"),
                unreached.err);
        Ran field = ask("M.java:22", "a.w");
        assertTrue(field.err.contains("M$A has no field w; near are v"), field.err);
    }

    @Test
    void aRefusalIsNoAnswer() {
        Ran ran = ask("M.java:15", "z", "--budget", "1");
        assertEquals(4, ran.status, ran.out);
        assertTrue(ran.err.contains("refused OverBudget 1: the answer demands more nodes"), ran.err);
        assertTrue(!ran.out.contains("new M$A"), ran.out);
    }

    @Test
    void wrongWordsAndInputsHaveTheirStatuses() {
        assertEquals(2, ask().status);
        assertEquals(2, ask("M.java:x", "x").status);
        assertEquals(3, run(List.of("jimple", "-c", "/no/such/folder")).status);
        assertEquals(3, run(List.of("close", "-c", program.folder().toString(), "-m", "NoSuchClass")).status);
    }

    @Test
    void answersHaveTheFieldsOfTheSchemaAndNoOthers() throws Exception {
        ObjectMapper mapper = new ObjectMapper();
        JsonNode schema = mapper.readTree(Compiled.top().resolve("java/schema/answer.json").toFile());
        Path json = Files.createTempFile("answer", ".json");
        for (String[] words : new String[][] {{"M.java:15", "z"}, {"M.java:22", "a", "x"}, {"M.java:27", "a.v"},
            {"M.java", "--all"}, {"M.java:15", "z", "--budget", "1"}}) {
            List<String> all = new ArrayList<>(List.of(words));
            all.addAll(List.of("--json", json.toString()));
            ask(all.toArray(new String[0]));
            for (JsonNode answer : mapper.readTree(json.toFile())) {
                Schema.hold(schema, schema, answer, "answer");
                assertEquals("boomer-java/answer-1", answer.get("schema").asText());
                assertEquals(!Compiled.program().proved(), !answer.get("standsOn").get("proved").asBoolean());
                told(answer);
            }
        }
    }

    /** Each line of the reply that is a site is told once. */
    private static void told(JsonNode answer) {
        List<String> sites = new ArrayList<>();
        answer.get("sites").forEach(site -> sites.add(site.get("site").asText()));
        List<String> lines = new ArrayList<>();
        answer.get("reply").forEach(line -> {
            if (line.asText().startsWith("site ") || line.asText().startsWith("shared ")) {
                lines.add(line.asText().substring(line.asText().indexOf(' ') + 1));
            }
        });
        assertEquals(lines, sites);
    }
}
