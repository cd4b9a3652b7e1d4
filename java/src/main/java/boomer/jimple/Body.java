package boomer.jimple;

import boomer.classes.BadInput;
import boomer.classes.ClassFile;
import java.util.ArrayList;
import java.util.LinkedHashMap;
import java.util.LinkedHashSet;
import java.util.List;
import java.util.Map;
import java.util.Set;
import java.util.function.UnaryOperator;
import org.objectweb.asm.tree.AbstractInsnNode;
import org.objectweb.asm.tree.MethodNode;
import org.objectweb.asm.tree.analysis.Analyzer;
import org.objectweb.asm.tree.analysis.AnalyzerException;
import org.objectweb.asm.tree.analysis.BasicInterpreter;
import org.objectweb.asm.tree.analysis.BasicValue;
import org.objectweb.asm.tree.analysis.Frame;

/**
 * The body of a method. The statements of one instruction stand together; at most one of them may raise or jump, and
 * the others are copies. Each use of a local is reached by a definition on each path.
 */
public final class Body {
    private final List<Stmt> statements;
    private final List<Trap> traps;
    private final List<Local> locals;
    private final Holding holding;

    private Body(List<Stmt> statements, List<Trap> traps, List<Local> locals, Holding holding) {
        this.statements = statements;
        this.traps = traps;
        this.locals = locals;
        this.holding = holding;
    }

    /**
     * Converts a method that has code.
     *
     * @throws BadInput where the code isn't such as the JVM's verifier accepts
     */
    public static Body of(ClassFile file, MethodNode method) throws BadInput {
        try {
            Instructions code = new Instructions(method);
            Draft draft = Walk.draft(file, method, code, frames(file, method)).pruned();
            List<Blocks.Block> blocks = Blocks.of(draft);
            Webs webs = new Webs(draft, blocks);
            Map<Integer, Local> locals = Naming.of(method, code, draft, webs);
            int[] offsets = file.offsets(method);
            List<Stmt> statements = new ArrayList<>();
            for (int at = 0; at < draft.lines().size(); at++) {
                statements.add(statement(draft.lines().get(at), at, webs, locals, code, offsets));
            }
            Set<Local> all = new LinkedHashSet<>(locals.values());
            Holding holding = new Holding(method, code, draft, blocks, statements);
            return new Body(List.copyOf(statements), List.copyOf(draft.traps()), List.copyOf(all), holding);
        } catch (AnalyzerException | IllegalStateException | IndexOutOfBoundsException | NullPointerException e) {
            throw new BadInput(file.name() + "." + method.name + method.desc + " can't be converted: " + e.getMessage(),
                    e);
        }
    }

    /** The same body with other statements in the places of these, which define and jump as these do. */
    public Body with(UnaryOperator<Stmt> change) {
        return new Body(statements.stream().map(change).toList(), traps, locals, holding);
    }

    /** The statements, from 0. */
    public List<Stmt> statements() {
        return statements;
    }

    /** The traps in the order in which they are tried. */
    public List<Trap> traps() {
        return traps;
    }

    /** The locals, in the order of their first definitions. */
    public List<Local> locals() {
        return locals;
    }

    /** The number of the first statement of each instruction that has some. */
    public Map<Integer, Integer> firsts() {
        Map<Integer, Integer> firsts = new LinkedHashMap<>();
        for (int i = 0; i < statements.size(); i++) {
            if (statements.get(i).instruction() >= 0) {
                firsts.putIfAbsent(statements.get(i).instruction(), i);
            }
        }
        return firsts;
    }

    /**
     * For each instruction that has statements, just before it: for each slot that surely holds a reference the one
     * local that has it.
     */
    public Map<Integer, Map<Integer, Local>> held() {
        Map<Integer, Map<Integer, Local>> held = new LinkedHashMap<>();
        firsts().forEach((instruction, statement) -> held.put(instruction, holding.references(statement)));
        return held;
    }

    /** The locals that are source variables just before a statement, by the names of the variables. */
    public List<Local> variables(int statement) {
        return holding.variables(statement);
    }

    private static Stmt statement(Line line, int at, Webs webs, Map<Integer, Local> locals, Instructions code,
            int[] offsets) {
        List<Value> words = new ArrayList<>(line.words);
        for (int i = 0; i < words.size(); i++) {
            if (words.get(i) instanceof Variable) {
                words.set(i, locals.get(webs.used(at, i)));
            }
        }
        int number = line.instruction;
        int offset = number >= 0 && number < offsets.length ? offsets[number] : -1;
        return new Stmt(line.kind, line.to == null ? null : locals.get(webs.defined(at)), List.copyOf(words),
                List.copyOf(line.jumps), number, offset, number < 0 ? 0 : code.line(number), line.named);
    }

    private static Frame<BasicValue>[] frames(ClassFile file, MethodNode method) throws AnalyzerException {
        Frame<BasicValue>[] all = new Analyzer<>(new BasicInterpreter()).analyze(file.name(), method);
        @SuppressWarnings({"unchecked", "rawtypes"})
        Frame<BasicValue>[] counted = new Frame[all.length];
        int count = 0;
        int at = 0;
        for (AbstractInsnNode node : method.instructions) {
            if (node.getOpcode() >= 0) {
                counted[count++] = all[at];
            }
            at++;
        }
        return counted;
    }
}
