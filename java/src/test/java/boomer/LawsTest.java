package boomer;

import static org.junit.jupiter.api.Assertions.assertEquals;
import static org.junit.jupiter.api.Assertions.assertTrue;

import boomer.classes.ClassFile;
import boomer.classes.ClassPath;
import boomer.classes.From;
import boomer.jimple.Body;
import boomer.jimple.Converter;
import boomer.jimple.Kind;
import boomer.jimple.Local;
import boomer.jimple.Stmt;
import boomer.jimple.Trap;
import java.util.ArrayDeque;
import java.util.ArrayList;
import java.util.Collections;
import java.util.Deque;
import java.util.HashSet;
import java.util.List;
import java.util.Set;
import org.junit.jupiter.api.BeforeAll;
import org.junit.jupiter.api.Test;
import org.objectweb.asm.Opcodes;
import org.objectweb.asm.Type;
import org.objectweb.asm.tree.LdcInsnNode;
import org.objectweb.asm.tree.MethodNode;

/** What bodies promise, of each body of some packages of the JDK. */
final class LawsTest {
    private static final Set<String> PACKAGES = Set.of("java/util/", "java/util/regex/", "java/text/");
    private static final List<Converted> ALL = new ArrayList<>();

    /** A class as it was read, and as it was rewritten. */
    private record Converted(ClassFile read, ClassFile rewritten) { }

    @BeforeAll
    static void convert() throws Exception {
        ClassPath path = ClassPath.of("jrt:java.base");
        Converter converter = new Converter(path, From.USER, false);
        for (String name : path.names()) {
            if (PACKAGES.contains(name.substring(0, name.lastIndexOf('/') + 1))) {
                ClassFile read = ClassFile.read(path.find(name).orElseThrow(), From.USER, name);
                ALL.add(new Converted(read, converter.classes(name).get(0)));
            }
        }
        assertTrue(ALL.size() > 400, ALL.size() + " classes");
    }

    /** The instructions of a method; one call may stand for another, and for the class in front of {@code valueOf}. */
    private static List<Integer> codes(MethodNode method) {
        List<Integer> codes = new ArrayList<>();
        method.instructions.forEach(node -> {
            int code = node.getOpcode();
            boolean isCall = code >= Opcodes.INVOKEVIRTUAL && code <= Opcodes.INVOKEDYNAMIC;
            if (isCall || node instanceof LdcInsnNode constant && constant.cst instanceof Type) {
                codes.add(Opcodes.INVOKESTATIC);
            } else if (code >= 0) {
                codes.add(code);
            }
        });
        return codes;
    }

    @Test
    void eachInstructionStandsForTheOneThatWasRead() {
        for (Converted it : ALL) {
            for (MethodNode method : it.read.node().methods) {
                MethodNode rewritten = it.rewritten.method(method.name, method.desc);
                assertEquals(codes(method), codes(rewritten), it.read.name() + "." + method.name + method.desc);
                assertEquals(codes(method).size(), it.rewritten.offsets(rewritten).length, "offsets");
            }
        }
    }

    @Test
    void theStatementsOfAnInstructionStandTogetherAndOneActs() throws Exception {
        for (Converted it : ALL) {
            for (MethodNode method : it.rewritten.node().methods) {
                if (method.instructions.size() > 0) {
                    together(Body.of(it.rewritten, method), it.rewritten.name() + "." + method.name + method.desc);
                }
            }
        }
    }

    private static void together(Body body, String where) {
        Set<Integer> ended = new HashSet<>();
        int before = -1;
        boolean acts = false;
        for (Stmt statement : body.statements()) {
            if (statement.instruction() != before) {
                ended.add(before);
                before = statement.instruction();
                acts = false;
                assertTrue(before < 0 || !ended.contains(before), where + ": instruction " + before + " is split");
            }
            boolean isActing = !Set.of(Kind.COPY, Kind.CAUGHT, Kind.THIS, Kind.PARAMETER).contains(statement.kind());
            assertTrue(before < 0 || !acts || !isActing, where + ": instruction " + before + " acts twice");
            acts |= isActing;
        }
    }

    @Test
    void eachUseOfALocalIsReachedByADefinitionOnEachPath() throws Exception {
        for (Converted it : ALL) {
            for (MethodNode method : it.rewritten.node().methods) {
                if (method.instructions.size() > 0) {
                    defined(Body.of(it.rewritten, method), it.rewritten.name() + "." + method.name + method.desc);
                }
            }
        }
    }

    /** Goes along all edges, with the locals that are surely defined. */
    private static void defined(Body body, String where) {
        List<Set<Local>> known = new ArrayList<>(Collections.nCopies(body.statements().size(), null));
        Deque<Integer> waiting = new ArrayDeque<>();
        meet(known, waiting, 0, Set.of());
        while (!waiting.isEmpty()) {
            int at = waiting.pop();
            Stmt statement = body.statements().get(at);
            Set<Local> now = known.get(at);
            for (Trap trap : body.traps()) {
                if (trap.from() <= at && at < trap.to()) {
                    meet(known, waiting, trap.handler(), now);
                }
            }
            Set<Local> behind = new HashSet<>(now);
            if (statement.to() != null) {
                behind.add(statement.to());
            }
            statement.jumps().forEach(to -> meet(known, waiting, to, behind));
            if (statement.kind().goesOn()) {
                meet(known, waiting, at + 1, behind);
            }
        }
        for (int at = 0; at < known.size(); at++) {
            for (var word : body.statements().get(at).words()) {
                assertTrue(known.get(at) != null, where + ": nothing reaches " + at);
                boolean isDefined = !(word instanceof Local local) || known.get(at).contains(local);
                assertTrue(isDefined, where + " " + at + ": " + word);
            }
        }
    }

    private static void meet(List<Set<Local>> known, Deque<Integer> waiting, int at, Set<Local> more) {
        Set<Local> old = known.get(at);
        if (old == null || !more.containsAll(old)) {
            Set<Local> both = new HashSet<>(more);
            if (old != null) {
                both.retainAll(old);
            }
            known.set(at, both);
            waiting.push(at);
        }
    }
}
