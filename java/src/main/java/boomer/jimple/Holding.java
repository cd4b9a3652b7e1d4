package boomer.jimple;

import boomer.jimple.Blocks.Block;
import java.util.ArrayList;
import java.util.Arrays;
import java.util.LinkedHashMap;
import java.util.List;
import java.util.Map;
import org.objectweb.asm.Type;
import org.objectweb.asm.tree.LocalVariableNode;
import org.objectweb.asm.tree.MethodNode;

/**
 * Which local has what a slot of the JVM holds, where that is one local on all paths. It is worked out where it is
 * asked.
 */
final class Holding {
    private static final Local NONE = new Local("", Type.VOID_TYPE, null);

    private final MethodNode method;
    private final Instructions code;
    private final Draft draft;
    private final List<Block> blocks;
    private final List<Stmt> statements;
    /** For each statement the local of each slot just before it; null where it isn't worked out yet. */
    private Local[][] before;

    Holding(MethodNode method, Instructions code, Draft draft, List<Block> blocks, List<Stmt> statements) {
        this.method = method;
        this.code = code;
        this.draft = draft;
        this.blocks = blocks;
        this.statements = statements;
    }

    /** For each slot that surely holds a reference before a statement the local that has it. */
    Map<Integer, Local> references(int statement) {
        Local[] slots = before()[statement];
        Map<Integer, Local> found = new LinkedHashMap<>();
        for (int slot = 0; slot < slots.length; slot++) {
            if (slots[slot] != NONE && slots[slot].isReference()) {
                found.put(slot, slots[slot]);
            }
        }
        return found;
    }

    /** The locals that are source variables before a statement. */
    List<Local> variables(int statement) {
        Local[] slots = before()[statement];
        List<Local> found = new ArrayList<>();
        for (int slot = 0; slot < slots.length; slot++) {
            if (slots[slot] != NONE && slots[slot].variable() != null && isInScope(slots[slot], slot, statement)) {
                found.add(slots[slot]);
            }
        }
        return found;
    }

    private boolean isInScope(Local local, int slot, int statement) {
        int instruction = instructionAt(statement);
        if (method.localVariables == null) {
            return true;
        }
        for (LocalVariableNode each : method.localVariables) {
            if (each.index == slot && each.name.equals(local.variable()) && code.number(each.start) <= instruction
                    && instruction < code.number(each.end)) {
                return true;
            }
        }
        return local.variable().equals("this");
    }

    /** The instruction of a statement; of one that stands for none the first behind it. */
    private int instructionAt(int statement) {
        for (int at = statement; at < statements.size(); at++) {
            if (statements.get(at).instruction() >= 0) {
                return statements.get(at).instruction();
            }
        }
        return code.count();
    }

    private Local[][] before() {
        if (before == null) {
            before = new Local[statements.size()][];
            Local[] nothing = new Local[method.maxLocals + 1];
            Arrays.fill(nothing, NONE);
            before[0] = nothing;
            boolean changes = true;
            while (changes) {
                changes = false;
                for (Block block : blocks) {
                    changes |= before[block.from()] != null && go(block);
                }
            }
        }
        return before;
    }

    /** Goes through a block, and tells whether that changed what holds before another one. */
    private boolean go(Block block) {
        boolean changes = false;
        Local[] now = before[block.from()].clone();
        for (int at = block.from(); at < block.to(); at++) {
            if (at > block.from()) {
                before[at] = now.clone();
            }
            for (int handler : block.handlers()) {
                changes |= meet(blocks.get(handler).from(), now);
            }
            assign(at, now);
        }
        for (int next : block.next()) {
            changes |= meet(blocks.get(next).from(), now);
        }
        return changes;
    }

    private void assign(int at, Local[] slots) {
        Variable to = draft.lines().get(at).to;
        if (to == null || !to.isSlot()) {
            return;
        }
        Type wide = to.number() > 0 && slots[to.number() - 1] != NONE ? slots[to.number() - 1].type() : null;
        if (wide == Type.LONG_TYPE || wide == Type.DOUBLE_TYPE) {
            slots[to.number() - 1] = NONE;
        }
        slots[to.number()] = statements.get(at).to();
        if (to.type() == Type.LONG_TYPE || to.type() == Type.DOUBLE_TYPE) {
            slots[to.number() + 1] = NONE;
        }
    }

    private boolean meet(int statement, Local[] slots) {
        Local[] old = before[statement];
        if (old == null) {
            before[statement] = slots.clone();
            return true;
        }
        boolean changes = false;
        for (int slot = 0; slot < slots.length; slot++) {
            if (old[slot] != NONE && !old[slot].equals(slots[slot])) {
                old[slot] = NONE;
                changes = true;
            }
        }
        return changes;
    }
}
