package boomer.beside;

import boomer.beside.Instrument.Rewritten;
import boomer.beside.Spots.Spot;
import boomer.classes.BadInput;
import boomer.classes.Names;
import java.util.ArrayList;
import java.util.BitSet;
import java.util.HashMap;
import java.util.List;
import java.util.Map;
import org.objectweb.asm.Opcodes;
import org.objectweb.asm.Type;
import org.objectweb.asm.tree.AbstractInsnNode;
import org.objectweb.asm.tree.ClassNode;
import org.objectweb.asm.tree.FrameNode;
import org.objectweb.asm.tree.InsnList;
import org.objectweb.asm.tree.InsnNode;
import org.objectweb.asm.tree.InvokeDynamicInsnNode;
import org.objectweb.asm.tree.JumpInsnNode;
import org.objectweb.asm.tree.LabelNode;
import org.objectweb.asm.tree.LdcInsnNode;
import org.objectweb.asm.tree.MethodInsnNode;
import org.objectweb.asm.tree.MethodNode;
import org.objectweb.asm.tree.TryCatchBlockNode;
import org.objectweb.asm.tree.VarInsnNode;
import org.objectweb.asm.tree.analysis.AnalyzerException;

/** Puts the calls into one method. */
final class Weaving {
    private final ClassNode owner;
    private final MethodNode method;
    private final String name;
    private final int number;
    private final Instrument into;
    private final List<AbstractInsnNode> real = new ArrayList<>();
    private final Map<LabelNode, LabelNode> moved = new HashMap<>();
    /** For each instruction the slots that the verifier takes as references before it. */
    private final Map<AbstractInsnNode, BitSet> references = new HashMap<>();

    Weaving(ClassNode owner, MethodNode method, String name, int number, Instrument into) {
        this.owner = owner;
        this.method = method;
        this.name = name;
        this.number = number;
        this.into = into;
        BitSet now = new BitSet();
        now.set(0, method.maxLocals);
        for (AbstractInsnNode node : method.instructions) {
            if (node instanceof FrameNode frame) {
                now = references(frame);
            } else if (node.getOpcode() >= 0) {
                real.add(node);
                references.put(node, (BitSet) now.clone());
                if (node instanceof VarInsnNode local && node.getOpcode() >= Opcodes.ISTORE) {
                    now.set(local.var, node.getOpcode() == Opcodes.ASTORE);
                }
            }
        }
    }

    private static BitSet references(FrameNode frame) {
        BitSet slots = new BitSet();
        int slot = 0;
        for (Object type : frame.local) {
            slots.set(slot, type instanceof String || type instanceof LabelNode || type == Opcodes.NULL);
            slot += type == Opcodes.LONG || type == Opcodes.DOUBLE ? 2 : 1;
        }
        return slots;
    }

    /** Puts them in. */
    void weave(Map<Integer, Spot> spots, Rewritten rewritten) throws BadInput {
        Origins origins = origins();
        int superCall = -1;
        for (int at = 0; at < real.size(); at++) {
            AbstractInsnNode node = real.get(at);
            if (node instanceof MethodInsnNode call && origins.isSuperCall(call)) {
                superCall = at;
                into.spots().superCall(name, at);
            }
        }
        for (int at = 0; at < real.size(); at++) {
            AbstractInsnNode node = real.get(at);
            InsnList before = new InsnList();
            Spot spot = spots.get(at);
            if (spot != null) {
                at(spot, at <= superCall, references.get(node), before);
                before(node, spot, origins, spots, before);
                behind(node, spot, origins, spots);
            } else if (node instanceof LdcInsnNode constant) {
                constant(constant);
            }
            dynamic(node, rewritten.lambda(at));
            if (node.getOpcode() == Opcodes.RETURN && method.name.equals("<clinit>")) {
                before.add(numbered("left", number, ""));
            }
            put(before, node);
        }
        mendFrames();
        InsnList handlers = handlers();
        around(superCall < 0 ? null : real.get(superCall));
        method.instructions.add(handlers);
    }

    /** Before each handler stands code of its own, since code may also fall or jump into a handler. */
    private InsnList handlers() {
        InsnList all = new InsnList();
        Map<LabelNode, LabelNode> befores = new HashMap<>();
        for (TryCatchBlockNode block : method.tryCatchBlocks) {
            LabelNode handler = block.handler;
            block.handler = befores.computeIfAbsent(handler, any -> new LabelNode());
            if (all.contains(block.handler)) {
                continue;
            }
            all.add(block.handler);
            for (AbstractInsnNode node = handler; node.getOpcode() < 0; node = node.getNext()) {
                if (node instanceof FrameNode frame) {
                    all.add(new FrameNode(Opcodes.F_NEW, frame.local.size(), frame.local.toArray(), 1,
                            frame.stack.toArray()));
                }
            }
            all.add(new InsnNode(Opcodes.DUP));
            all.add(numbered("caught", number, "Ljava/lang/Throwable;"));
            all.add(new JumpInsnNode(Opcodes.GOTO, handler));
        }
        return all;
    }

    private Origins origins() throws BadInput {
        try {
            return Origins.of(owner.name, method);
        } catch (AnalyzerException e) {
            throw new BadInput(name + " can't be instrumented: " + e.getMessage(), e);
        }
    }

    /** An object that isn't yet made has the place of its NEW as its type, so the calls stand before its label. */
    private void put(InsnList before, AbstractInsnNode node) {
        if (node.getOpcode() == Opcodes.NEW) {
            LabelNode label = new LabelNode();
            before.add(label);
            AbstractInsnNode each = node.getPrevious();
            while (each != null && each.getOpcode() < 0) {
                if (each instanceof LabelNode old) {
                    moved.put(old, label);
                }
                each = each.getPrevious();
            }
        }
        method.instructions.insertBefore(node, before);
    }

    private void mendFrames() {
        for (AbstractInsnNode node : method.instructions) {
            if (node instanceof FrameNode frame) {
                frame.local = mended(frame.local);
                frame.stack = mended(frame.stack);
            }
        }
    }

    private List<Object> mended(List<Object> types) {
        return types == null ? null : new ArrayList<>(types.stream()
                .map(type -> type instanceof LabelNode label ? moved.getOrDefault(label, label) : type).toList());
    }

    private void at(Spot spot, boolean isEarly, BitSet usable, InsnList before) {
        before.add(numbered("at", spot.number(), ""));
        boolean hasThis = (method.access & Opcodes.ACC_STATIC) == 0;
        spot.held().forEach((slot, local) -> {
            if (usable.get(slot) && !(isEarly && hasThis && slot == 0)) {
                before.add(new VarInsnNode(Opcodes.ALOAD, slot));
                before.add(numbered("slot", slot, "Ljava/lang/Object;"));
            }
        });
    }

    /** What is told before an instruction. */
    private void before(AbstractInsnNode node, Spot spot, Origins origins, Map<Integer, Spot> spots, InsnList before) {
        int op = node.getOpcode();
        if (op >= Opcodes.IALOAD && op <= Opcodes.SALOAD) {
            before.add(new InsnNode(Opcodes.DUP2));
            before.add(call("cell", "(Ljava/lang/Object;I)V"));
        } else if (op == Opcodes.LASTORE || op == Opcodes.DASTORE) {
            add(before, Opcodes.DUP2_X2, Opcodes.POP2, Opcodes.DUP2_X2);
            before.add(call("cell", "(Ljava/lang/Object;I)V"));
        } else if (op >= Opcodes.IASTORE && op <= Opcodes.SASTORE) {
            add(before, Opcodes.DUP_X2, Opcodes.POP, Opcodes.DUP2_X1);
            before.add(call("cell", "(Ljava/lang/Object;I)V"));
        } else if (op == Opcodes.TABLESWITCH || op == Opcodes.LOOKUPSWITCH) {
            before.add(new InsnNode(Opcodes.DUP));
            before.add(call("key", "(I)V"));
        } else if (node instanceof MethodInsnNode call && isCloneOfArray(call)) {
            before.add(new InsnNode(Opcodes.DUP));
            before.add(call("cloning", "(Ljava/lang/Object;)V"));
        } else if (node instanceof MethodInsnNode call && origins.made(call) != null) {
            Spot made = spots.get(real.indexOf(origins.made(call)));
            before.add(numbered("constructing", made.number(), ""));
        }
    }

    private void behind(AbstractInsnNode node, Spot spot, Origins origins, Map<Integer, Spot> spots) {
        InsnList behind = new InsnList();
        int op = node.getOpcode();
        if (op == Opcodes.NEWARRAY || op == Opcodes.ANEWARRAY || op == Opcodes.MULTIANEWARRAY) {
            behind.add(new InsnNode(Opcodes.DUP));
            behind.add(numbered("made", spot.number(), "Ljava/lang/Object;"));
        } else if (node instanceof MethodInsnNode call && isCloneOfArray(call)) {
            behind.add(new InsnNode(Opcodes.DUP));
            behind.add(call("cloned", "(Ljava/lang/Object;)V"));
        } else if (node instanceof MethodInsnNode call && origins.isSuperCall(call)) {
            behind.add(new VarInsnNode(Opcodes.ALOAD, 0));
            behind.add(call("self", "(Ljava/lang/Object;)V"));
        } else if (node instanceof MethodInsnNode call && origins.made(call) != null) {
            AbstractInsnNode load = origins.load(call);
            if (load != null) {
                behind.add(load);
                behind.add(numbered("constructed", spots.get(real.indexOf(origins.made(call))).number(),
                        "Ljava/lang/Object;"));
            }
        }
        method.instructions.insert(node, behind);
    }

    private static boolean isCloneOfArray(MethodInsnNode call) {
        return call.owner.startsWith("[") && call.name.equals("clone");
    }

    private void constant(LdcInsnNode node) {
        String site = null;
        if (node.cst instanceof String text) {
            site = "text " + Names.literal(text);
        } else if (node.cst instanceof Type type && type.getSort() != Type.METHOD) {
            site = "class " + Names.literal(type.getDescriptor());
        }
        if (site != null) {
            known(node, into.constant(site));
        }
    }

    private void dynamic(AbstractInsnNode node, int constant) {
        if (node instanceof InvokeDynamicInsnNode && constant >= 0) {
            known(node, constant);
        }
    }

    private void known(AbstractInsnNode node, int constant) {
        InsnList behind = new InsnList();
        behind.add(new InsnNode(Opcodes.DUP));
        behind.add(numbered("constant", constant, "Ljava/lang/Object;"));
        method.instructions.insert(node, behind);
    }

    /** Tells where the method begins, and what leaves it: of a constructor behind the call of another constructor. */
    private void around(AbstractInsnNode superCall) {
        LabelNode from = new LabelNode();
        LabelNode to = new LabelNode();
        InsnList start = new InsnList();
        start.add(numbered("enter", number, ""));
        if (superCall == null) {
            start.add(from);
        } else {
            AbstractInsnNode self = superCall.getNext().getNext();
            method.instructions.insert(self, from);
        }
        method.instructions.insert(start);
        InsnList end = new InsnList();
        end.add(to);
        if ((owner.version & 0xffff) > Opcodes.V1_6) {
            end.add(new FrameNode(Opcodes.F_NEW, 0, new Object[0], 1, new Object[] {"java/lang/Throwable"}));
        }
        end.add(new InsnNode(Opcodes.DUP));
        end.add(numbered("exit", number, "Ljava/lang/Throwable;"));
        end.add(new InsnNode(Opcodes.ATHROW));
        method.instructions.add(end);
        method.tryCatchBlocks.add(new TryCatchBlockNode(from, to, to, null));
        method.localVariables = null;
        method.visibleLocalVariableAnnotations = null;
        method.invisibleLocalVariableAnnotations = null;
    }

    private static void add(InsnList list, int... codes) {
        for (int code : codes) {
            list.add(new InsnNode(code));
        }
    }

    /** The number, and a call that takes it behind what is on the stack. */
    private static InsnList numbered(String hook, int number, String before) {
        InsnList list = new InsnList();
        list.add(new LdcInsnNode(number));
        list.add(call(hook, "(" + before + "I)V"));
        return list;
    }

    private static MethodInsnNode call(String hook, String descriptor) {
        return new MethodInsnNode(Opcodes.INVOKESTATIC, "boomer/beside/Trace", hook, descriptor, false);
    }
}
