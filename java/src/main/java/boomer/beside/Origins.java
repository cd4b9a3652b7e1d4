package boomer.beside;

import java.util.HashMap;
import java.util.Map;
import java.util.Set;
import org.objectweb.asm.Opcodes;
import org.objectweb.asm.Type;
import org.objectweb.asm.tree.AbstractInsnNode;
import org.objectweb.asm.tree.InsnNode;
import org.objectweb.asm.tree.MethodInsnNode;
import org.objectweb.asm.tree.MethodNode;
import org.objectweb.asm.tree.VarInsnNode;
import org.objectweb.asm.tree.analysis.Analyzer;
import org.objectweb.asm.tree.analysis.AnalyzerException;
import org.objectweb.asm.tree.analysis.Frame;
import org.objectweb.asm.tree.analysis.SourceInterpreter;
import org.objectweb.asm.tree.analysis.SourceValue;

/** Which NEW made the object of each call of a constructor. */
final class Origins {
    private final Map<MethodInsnNode, AbstractInsnNode> made = new HashMap<>();
    private final Map<MethodInsnNode, AbstractInsnNode> loads = new HashMap<>();
    private final Map<MethodInsnNode, Boolean> superCalls = new HashMap<>();

    private Origins() { }

    static Origins of(String owner, MethodNode method) throws AnalyzerException {
        Origins origins = new Origins();
        Frame<SourceValue>[] frames = new Analyzer<>(new Passing()).analyze(owner, method);
        for (int at = 0; at < frames.length; at++) {
            if (method.instructions.get(at) instanceof MethodInsnNode call && call.name.equals("<init>")
                    && frames[at] != null) {
                origins.constructor(call, frames[at]);
            }
        }
        return origins;
    }

    /** The NEW that made the object, or null where a constructor calls another one of its own object. */
    AbstractInsnNode made(MethodInsnNode call) {
        return made.get(call);
    }

    boolean isSuperCall(MethodInsnNode call) {
        return superCalls.containsKey(call);
    }

    /** The instruction that loads the object behind the call, or null where nothing has it. */
    AbstractInsnNode load(MethodInsnNode call) {
        return loads.get(call);
    }

    private void constructor(MethodInsnNode call, Frame<SourceValue> frame) {
        int base = frame.getStackSize() - 1 - Type.getArgumentTypes(call.desc).length;
        SourceValue object = frame.getStack(base);
        AbstractInsnNode origin = origin(object);
        if (origin == null) {
            superCalls.put(call, true);
            return;
        }
        made.put(call, origin);
        if (base > 0 && origin(frame.getStack(base - 1)) == origin) {
            loads.put(call, new InsnNode(Opcodes.DUP));
            return;
        }
        for (int slot = 0; slot < frame.getLocals(); slot++) {
            if (origin(frame.getLocal(slot)) == origin) {
                loads.put(call, new VarInsnNode(Opcodes.ALOAD, slot));
            }
        }
    }

    private static AbstractInsnNode origin(SourceValue value) {
        Set<AbstractInsnNode> insns = value.insns;
        for (AbstractInsnNode each : insns) {
            if (each.getOpcode() == Opcodes.NEW) {
                return each;
            }
        }
        return null;
    }

    /** Copies keep what made them. */
    private static final class Passing extends SourceInterpreter {
        Passing() {
            super(Opcodes.ASM9);
        }

        @Override
        public SourceValue copyOperation(AbstractInsnNode node, SourceValue value) {
            return value;
        }
    }
}
