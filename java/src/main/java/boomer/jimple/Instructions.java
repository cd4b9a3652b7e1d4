package boomer.jimple;

import java.util.ArrayList;
import java.util.BitSet;
import java.util.HashMap;
import java.util.List;
import java.util.Map;
import org.objectweb.asm.Opcodes;
import org.objectweb.asm.tree.AbstractInsnNode;
import org.objectweb.asm.tree.JumpInsnNode;
import org.objectweb.asm.tree.LabelNode;
import org.objectweb.asm.tree.LineNumberNode;
import org.objectweb.asm.tree.LookupSwitchInsnNode;
import org.objectweb.asm.tree.MethodNode;
import org.objectweb.asm.tree.TableSwitchInsnNode;
import org.objectweb.asm.tree.TryCatchBlockNode;

/** The instructions of a method by their numbers, from 0; labels, lines and frames aren't counted. */
final class Instructions {
    private final List<AbstractInsnNode> all = new ArrayList<>();
    private final List<Integer> lines = new ArrayList<>();
    private final Map<LabelNode, Integer> labels = new HashMap<>();
    private final BitSet targets = new BitSet();
    private final BitSet handlers = new BitSet();

    Instructions(MethodNode method) {
        int line = 0;
        for (AbstractInsnNode node : method.instructions) {
            if (node instanceof LabelNode label) {
                labels.put(label, all.size());
            } else if (node instanceof LineNumberNode number) {
                line = number.line;
            } else if (node.getOpcode() >= 0) {
                all.add(node);
                lines.add(line);
            }
        }
        for (AbstractInsnNode node : all) {
            for (LabelNode label : jumps(node)) {
                targets.set(number(label));
            }
        }
        for (TryCatchBlockNode block : method.tryCatchBlocks) {
            handlers.set(number(block.handler));
        }
    }

    int count() {
        return all.size();
    }

    AbstractInsnNode at(int number) {
        return all.get(number);
    }

    /** The source line of an instruction, or 0. */
    int line(int number) {
        return lines.get(number);
    }

    /** The number of the instruction before which a label stands. */
    int number(LabelNode label) {
        return labels.get(label);
    }

    boolean isTarget(int number) {
        return targets.get(number);
    }

    boolean isHandler(int number) {
        return handlers.get(number);
    }

    /** Whether the stack's entries are in the variables of their places there. */
    boolean isBorder(int number) {
        return targets.get(number) || handlers.get(number);
    }

    /** Where an instruction may jump, a switch's default last. */
    static List<LabelNode> jumps(AbstractInsnNode node) {
        if (node instanceof JumpInsnNode jump) {
            return List.of(jump.label);
        }
        if (node instanceof TableSwitchInsnNode table) {
            return with(table.labels, table.dflt);
        }
        if (node instanceof LookupSwitchInsnNode lookup) {
            return with(lookup.labels, lookup.dflt);
        }
        return List.of();
    }

    /** Whether the next instruction may follow. */
    static boolean goesOn(AbstractInsnNode node) {
        int code = node.getOpcode();
        return code != Opcodes.GOTO && code != Opcodes.ATHROW && code != Opcodes.TABLESWITCH
                && code != Opcodes.LOOKUPSWITCH && !(code >= Opcodes.IRETURN && code <= Opcodes.RETURN);
    }

    private static List<LabelNode> with(List<LabelNode> labels, LabelNode last) {
        List<LabelNode> all = new ArrayList<>(labels);
        all.add(last);
        return all;
    }
}
