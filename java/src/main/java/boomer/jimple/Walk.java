package boomer.jimple;

import boomer.classes.ClassFile;
import java.util.ArrayList;
import java.util.Collections;
import java.util.LinkedHashMap;
import java.util.List;
import java.util.Map;
import org.objectweb.asm.Handle;
import org.objectweb.asm.Opcodes;
import org.objectweb.asm.Type;
import org.objectweb.asm.tree.AbstractInsnNode;
import org.objectweb.asm.tree.FieldInsnNode;
import org.objectweb.asm.tree.FieldNode;
import org.objectweb.asm.tree.IincInsnNode;
import org.objectweb.asm.tree.IntInsnNode;
import org.objectweb.asm.tree.InvokeDynamicInsnNode;
import org.objectweb.asm.tree.LabelNode;
import org.objectweb.asm.tree.LdcInsnNode;
import org.objectweb.asm.tree.LookupSwitchInsnNode;
import org.objectweb.asm.tree.MethodInsnNode;
import org.objectweb.asm.tree.MethodNode;
import org.objectweb.asm.tree.MultiANewArrayInsnNode;
import org.objectweb.asm.tree.TableSwitchInsnNode;
import org.objectweb.asm.tree.TryCatchBlockNode;
import org.objectweb.asm.tree.TypeInsnNode;
import org.objectweb.asm.tree.VarInsnNode;
import org.objectweb.asm.tree.analysis.BasicValue;
import org.objectweb.asm.tree.analysis.Frame;

/**
 * One pass over the instructions of a method, which turns the stack into statements. Loads of locals and constants make
 * no statement; each other instruction makes its own at its place, so nothing that may raise moves.
 */
final class Walk {
    private static final Type THROWABLE = Type.getObjectType("java/lang/Throwable");

    private final MethodNode method;
    private final Instructions code;
    private final Frame<BasicValue>[] frames;
    private final List<Line> lines = new ArrayList<>();
    private final Map<Integer, Integer> stubs = new LinkedHashMap<>();
    private final int[] firsts;
    private final Stack stack = new Stack();
    private int fresh;
    private int at;
    /** The line that defined what is on top, where nothing came between. */
    private Line last;

    private Walk(String owner, MethodNode method, Instructions code, Frame<BasicValue>[] frames) {
        this.method = method;
        this.code = code;
        this.frames = frames;
        this.firsts = new int[code.count() + 1];
        parameters(Type.getObjectType(owner));
    }

    /**
     * The fields that the JVM sets by itself before the initializer runs: the static ones that have a text as a
     * constant.
     */
    private void constants(ClassFile file) {
        for (FieldNode field : Rewriting.texts(file)) {
            emit(Kind.STORE_STATIC, null, List.of(Constant.text((String) field.value)),
                    new Named.Field(file.name(), field.name, field.desc));
        }
    }

    /** The lines of a method. The frames are those before each of its instructions, null where no path leads. */
    static Draft draft(ClassFile file, MethodNode method, Instructions code, Frame<BasicValue>[] frames) {
        Walk walk = new Walk(file.name(), method, code, frames);
        if (method.name.equals(Rewriting.INITIALIZER)) {
            walk.constants(file);
        }
        walk.all();
        return new Draft(walk.lines, walk.traps());
    }

    private void parameters(Type owner) {
        at = -1;
        int slot = 0;
        if ((method.access & Opcodes.ACC_STATIC) == 0) {
            emit(Kind.THIS, Variable.slot(slot++, owner), List.of(), new Named.OfType(owner));
        }
        int number = 0;
        for (Type type : Type.getArgumentTypes(method.desc)) {
            emit(Kind.PARAMETER, Variable.slot(slot, type), List.of(), new Named.Parameter(number++, type));
            slot += type.getSize();
        }
    }

    private void all() {
        boolean falls = true;
        for (at = 0; at < code.count(); at++) {
            firsts[at] = lines.size();
            if (frames[at] == null) {
                falls = false;
                continue;
            }
            enter(falls);
            instruction(code.at(at));
            falls = Instructions.goesOn(code.at(at));
            if (falls && at + 1 < code.count() && code.isBorder(at + 1)) {
                copyToPlaces(List.of());
            }
        }
        firsts[at] = lines.size();
        stubs();
        for (Line line : lines) {
            line.jumps = line.jumps.stream().map(number -> firsts[number]).toList();
        }
    }

    /** Brings the stack into the form that it has before an instruction. */
    private void enter(boolean falls) {
        if (code.isHandler(at) && !code.isTarget(at) && !falls) {
            Variable caught = next(caughtAt(at));
            emit(Kind.CAUGHT, caught, List.of(), Named.NOTHING);
            stack.reset(List.of(caught));
        } else if (code.isBorder(at) || !falls) {
            last = null;
            stack.reset(places(at));
        }
        if (code.isHandler(at) && (code.isTarget(at) || falls)) {
            stubs.putIfAbsent(at, -1);
        }
    }

    private List<Variable> places(int number) {
        Frame<BasicValue> frame = frames[number];
        List<Variable> places = new ArrayList<>();
        for (int depth = 0; depth < frame.getStackSize(); depth++) {
            places.add(Variable.stack(depth, frame.getStack(depth).getType()));
        }
        return places;
    }

    /** Handlers into which code also falls or jumps are entered by lines of their own at the end. */
    private void stubs() {
        for (Map.Entry<Integer, Integer> stub : stubs.entrySet()) {
            int handler = stub.getKey();
            stub.setValue(lines.size());
            at = -1;
            emit(Kind.CAUGHT, Variable.stack(0, caughtAt(handler)), List.of(), Named.NOTHING);
            lines.add(new Line(Kind.GOTO, null, List.of(), List.of(handler), -1, Named.NOTHING));
        }
    }

    private List<Trap> traps() {
        List<Trap> traps = new ArrayList<>();
        for (TryCatchBlockNode block : method.tryCatchBlocks) {
            int handler = code.number(block.handler);
            if (frames[handler] != null) {
                traps.add(new Trap(firsts[code.number(block.start)], firsts[code.number(block.end)],
                        stubs.getOrDefault(handler, firsts[handler]), caught(block)));
            }
        }
        return traps;
    }

    private static String caught(TryCatchBlockNode block) {
        return block.type == null ? THROWABLE.getInternalName() : block.type;
    }

    private Type caughtAt(int handler) {
        String type = null;
        for (TryCatchBlockNode block : method.tryCatchBlocks) {
            if (code.number(block.handler) == handler) {
                type = type == null || type.equals(caught(block)) ? caught(block) : THROWABLE.getInternalName();
            }
        }
        return Type.getObjectType(type);
    }

    private void emit(Kind kind, Variable to, List<Value> words, Named named) {
        last = new Line(kind, to, words, List.of(), at, named);
        lines.add(last);
    }

    private Variable next(Type type) {
        return new Variable(Variable.Of.FRESH, fresh++, type);
    }

    /** Makes a statement with a result, and pushes the result. */
    private void push(Kind kind, Type type, List<Value> words, Named named) {
        Variable to = next(type);
        emit(kind, to, words, named);
        stack.push(to);
    }

    private Variable copied(Value value) {
        Variable copy = next(value.type() == null ? Variable.OBJECT : value.type());
        emit(Kind.COPY, copy, List.of(value), Named.NOTHING);
        return copy;
    }

    /** The operands, of which the first stands where the grammar has a name: a constant is copied. */
    private List<Value> based(List<Value> words) {
        if (words.get(0) instanceof Constant constant) {
            words.set(0, copied(constant));
        }
        return words;
    }

    private void save(Variable variable) {
        if (stack.has(variable)) {
            stack.replace(variable, copied(variable));
        }
    }

    /** A store: the value that the line just before made goes into the local at once, where nothing else has either. */
    private void store(int slot, Type kind) {
        Value value = stack.pop();
        Variable local = Variable.slot(slot, kind);
        boolean isLast = last != null && value.equals(last.to) && last.to.isFresh();
        if (isLast && !stack.has(value) && !stack.has(local)) {
            last.to = local;
            last.storedAt = at;
            last = null;
            return;
        }
        save(local);
        emit(Kind.COPY, local, List.of(value), Named.NOTHING);
    }

    private void increment(IincInsnNode node) {
        Variable local = Variable.slot(node.var, Type.INT_TYPE);
        save(local);
        emit(Kind.NUMERIC, local, List.of(local, Constant.number(node.incr)), new Named.Operator("+"));
    }

    /**
     * Copies each entry into the variable of its place, all at once in effect.
     *
     * @param read what is still read behind the copies
     * @return the same, where it stands then
     */
    private List<Value> copyToPlaces(List<Value> read) {
        List<Value> entries = stack.entries();
        List<Variable> places = new ArrayList<>();
        for (int depth = 0; depth < entries.size(); depth++) {
            places.add(Variable.stack(depth, entries.get(depth).type()));
        }
        List<Value> still = new ArrayList<>(read);
        for (int depth = 0; depth < places.size(); depth++) {
            Variable place = places.get(depth);
            boolean isElsewhere = still.contains(place);
            for (int other = 0; other < places.size(); other++) {
                isElsewhere |= other != depth && entries.get(other).equals(place);
            }
            if (!entries.get(depth).equals(place) && isElsewhere) {
                Variable saved = copied(place);
                stack.replace(place, saved);
                Collections.replaceAll(still, place, saved);
            }
        }
        for (int depth = 0; depth < places.size(); depth++) {
            if (!entries.get(depth).equals(places.get(depth))) {
                emit(Kind.COPY, places.get(depth), List.of(entries.get(depth)), Named.NOTHING);
            }
        }
        stack.reset(places);
        last = null;
        return still;
    }

    private void jump(Kind kind, List<Value> words, List<LabelNode> labels, Named named) {
        List<Value> still = copyToPlaces(words);
        lines.add(new Line(kind, null, still, labels.stream().map(code::number).toList(), at, named));
    }

    private void instruction(AbstractInsnNode node) {
        int op = node.getOpcode();
        if (node instanceof VarInsnNode local && op != Opcodes.RET) {
            if (op <= Opcodes.ALOAD) {
                stack.push(Variable.slot(local.var, Operations.ofLocal(op)));
            } else {
                store(local.var, Operations.ofLocal(op));
            }
        } else if (node instanceof IincInsnNode increment) {
            increment(increment);
        } else if (node instanceof LdcInsnNode constant) {
            constant(constant.cst);
        } else if (node instanceof IntInsnNode number) {
            number(number);
        } else if (node instanceof FieldInsnNode field) {
            field(field);
        } else if (node instanceof MethodInsnNode call) {
            call(call);
        } else if (node instanceof InvokeDynamicInsnNode call) {
            result(Kind.DYNAMIC, Type.getReturnType(call.desc), stack.pop(Type.getArgumentTypes(call.desc).length),
                    new Named.Dynamic(call.name, call.desc));
        } else if (node instanceof TypeInsnNode type) {
            type(op, Type.getObjectType(type.desc));
        } else if (node instanceof MultiANewArrayInsnNode arrays) {
            Type type = Type.getType(arrays.desc);
            push(Kind.NEW_ARRAYS, type, stack.pop(arrays.dims), new Named.OfType(type));
        } else if (node instanceof TableSwitchInsnNode table) {
            List<Integer> keys = new ArrayList<>();
            for (int i = 0; i < table.labels.size(); i++) {
                keys.add(table.min + i);
            }
            jump(Kind.SWITCH, stack.pop(1), Instructions.jumps(node), new Named.Keys(keys));
        } else if (node instanceof LookupSwitchInsnNode lookup) {
            jump(Kind.SWITCH, stack.pop(1), Instructions.jumps(node), new Named.Keys(List.copyOf(lookup.keys)));
        } else if (!Instructions.jumps(node).isEmpty()) {
            jump(op, Instructions.jumps(node));
        } else {
            plain(op);
        }
    }

    private void jump(int op, List<LabelNode> labels) {
        if (op == Opcodes.GOTO) {
            jump(Kind.GOTO, List.of(), labels, Named.NOTHING);
            return;
        }
        if (op == Opcodes.JSR) {
            throw new IllegalStateException("a subroutine");
        }
        boolean isPair = op >= Opcodes.IF_ICMPEQ && op <= Opcodes.IF_ACMPNE;
        List<Value> words = stack.pop(isPair ? 2 : 1);
        if (!isPair) {
            words.add(op == Opcodes.IFNULL || op == Opcodes.IFNONNULL ? Constant.NULL : Constant.ZERO);
        }
        jump(Kind.IF, words, labels, new Named.Operator(Operations.relation(op)));
    }

    private void constant(Object value) {
        if (value instanceof Number number) {
            stack.push(Constant.number(number));
        } else if (value instanceof String text) {
            stack.push(Constant.text(text));
        } else if (value instanceof Type type && type.getSort() != Type.METHOD) {
            stack.push(Constant.ofClass(type));
        } else {
            Type type = value instanceof org.objectweb.asm.ConstantDynamic dynamic
                    ? Type.getType(dynamic.getDescriptor())
                    : Type.getObjectType(value instanceof Handle ? "java/lang/invoke/MethodHandle"
                            : "java/lang/invoke/MethodType");
            push(Kind.DYNAMIC, type, List.of(), new Named.Dynamic("constant", type.getDescriptor()));
        }
    }

    private void number(IntInsnNode node) {
        if (node.getOpcode() == Opcodes.NEWARRAY) {
            array(Operations.ofArray(node.operand));
        } else {
            stack.push(Constant.number(node.operand));
        }
    }

    private void array(Type element) {
        push(Kind.NEW_ARRAY, Type.getType("[" + element.getDescriptor()), stack.pop(1), new Named.OfType(element));
    }

    private void field(FieldInsnNode node) {
        Named named = new Named.Field(node.owner, node.name, node.desc);
        Type type = Type.getType(node.desc);
        switch (node.getOpcode()) {
            case Opcodes.GETSTATIC -> push(Kind.LOAD_STATIC, type, List.of(), named);
            case Opcodes.PUTSTATIC -> emit(Kind.STORE_STATIC, null, stack.pop(1), named);
            case Opcodes.GETFIELD -> push(Kind.LOAD, type, based(stack.pop(1)), named);
            default -> emit(Kind.STORE, null, based(stack.pop(2)), named);
        }
    }

    private void call(MethodInsnNode node) {
        Named.Mode mode = switch (node.getOpcode()) {
            case Opcodes.INVOKESTATIC -> Named.Mode.STATIC;
            case Opcodes.INVOKESPECIAL -> Named.Mode.SPECIAL;
            case Opcodes.INVOKEINTERFACE -> Named.Mode.INTERFACE;
            default -> Named.Mode.VIRTUAL;
        };
        boolean isStatic = mode == Named.Mode.STATIC;
        List<Value> words = stack.pop(Type.getArgumentTypes(node.desc).length + (isStatic ? 0 : 1));
        String owner = node.owner.startsWith("[") ? Variable.OBJECT.getInternalName() : node.owner;
        result(Kind.CALL, Type.getReturnType(node.desc), isStatic ? words : based(words),
                new Named.Method(mode, owner, node.name, node.desc));
    }

    private void result(Kind kind, Type type, List<Value> words, Named named) {
        if (type == Type.VOID_TYPE) {
            emit(kind, null, words, named);
        } else {
            push(kind, type, words, named);
        }
    }

    private void type(int op, Type type) {
        switch (op) {
            case Opcodes.NEW -> push(Kind.NEW, type, List.of(), new Named.OfType(type));
            case Opcodes.ANEWARRAY -> array(type);
            case Opcodes.CHECKCAST -> push(Kind.CAST, type, stack.pop(1), new Named.OfType(type));
            default -> push(Kind.INSTANCE_OF, Type.INT_TYPE, stack.pop(1), new Named.OfType(type));
        }
    }

    private void plain(int op) {
        if (op >= Opcodes.ACONST_NULL && op <= Opcodes.DCONST_1) {
            small(op);
        } else if (op >= Opcodes.IALOAD && op <= Opcodes.SALOAD) {
            List<Value> words = based(stack.pop(2));
            push(Kind.LOAD_CELL, element(words.get(0).type(), Operations.ofElement(op)), words, Named.NOTHING);
        } else if (op >= Opcodes.IASTORE && op <= Opcodes.SASTORE) {
            emit(Kind.STORE_CELL, null, based(stack.pop(3)), Named.NOTHING);
        } else if (op >= Opcodes.POP && op <= Opcodes.SWAP) {
            stack.move(op);
        } else if (op >= Opcodes.INEG && op <= Opcodes.DNEG) {
            push(Kind.NUMERIC, Operations.ofArithmetic(op), stack.pop(1), new Named.Operator("neg"));
        } else if (op >= Opcodes.IADD && op <= Opcodes.LXOR) {
            push(Kind.NUMERIC, Operations.ofArithmetic(op), stack.pop(2),
                    new Named.Operator(Operations.arithmetic(op)));
        } else if (op >= Opcodes.I2L && op <= Opcodes.I2S) {
            Type type = Operations.converted(op);
            push(Kind.CONVERT, type, stack.pop(1), new Named.OfType(type));
        } else if (op >= Opcodes.LCMP && op <= Opcodes.DCMPG) {
            push(Kind.NUMERIC, Type.INT_TYPE, stack.pop(2), new Named.Operator(Operations.comparison(op)));
        } else {
            last(op);
        }
    }

    private void last(int op) {
        switch (op) {
            case Opcodes.NOP -> { }
            case Opcodes.RETURN -> emit(Kind.RETURN, null, List.of(), Named.NOTHING);
            case Opcodes.IRETURN, Opcodes.LRETURN, Opcodes.FRETURN, Opcodes.DRETURN, Opcodes.ARETURN ->
                emit(Kind.RETURN, null, stack.pop(1), Named.NOTHING);
            case Opcodes.ARRAYLENGTH -> push(Kind.LENGTH, Type.INT_TYPE, stack.pop(1), Named.NOTHING);
            case Opcodes.ATHROW -> emit(Kind.THROW, null, stack.pop(1), Named.NOTHING);
            case Opcodes.MONITORENTER -> emit(Kind.ENTER, null, stack.pop(1), Named.NOTHING);
            case Opcodes.MONITOREXIT -> emit(Kind.EXIT, null, stack.pop(1), Named.NOTHING);
            default -> throw new IllegalStateException("the instruction with the code " + op);
        }
    }

    private void small(int op) {
        if (op == Opcodes.ACONST_NULL) {
            stack.push(Constant.NULL);
        } else if (op <= Opcodes.ICONST_5) {
            stack.push(Constant.number(op - Opcodes.ICONST_0));
        } else if (op <= Opcodes.LCONST_1) {
            stack.push(Constant.number((long) (op - Opcodes.LCONST_0)));
        } else if (op <= Opcodes.FCONST_2) {
            stack.push(Constant.number((float) (op - Opcodes.FCONST_0)));
        } else {
            stack.push(Constant.number((double) (op - Opcodes.DCONST_0)));
        }
    }

    private static Type element(Type array, Type kind) {
        if (kind != Variable.OBJECT || array == null || array.getSort() != Type.ARRAY) {
            return kind;
        }
        return Type.getType(array.getDescriptor().substring(1));
    }
}
