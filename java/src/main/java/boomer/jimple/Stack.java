package boomer.jimple;

import java.util.ArrayList;
import java.util.List;
import org.objectweb.asm.Opcodes;
import org.objectweb.asm.Type;

/** The operand stack of constants and variables. An entry may be two words wide. */
final class Stack {
    private final List<Value> entries = new ArrayList<>();

    int size() {
        return entries.size();
    }

    List<Value> entries() {
        return entries;
    }

    void push(Value value) {
        entries.add(value);
    }

    Value pop() {
        return entries.remove(entries.size() - 1);
    }

    /** Takes so many entries; the first is the lowest. */
    List<Value> pop(int count) {
        List<Value> top = entries.subList(entries.size() - count, entries.size());
        List<Value> taken = new ArrayList<>(top);
        top.clear();
        return taken;
    }

    void reset(List<? extends Value> values) {
        entries.clear();
        entries.addAll(values);
    }

    boolean has(Value value) {
        return entries.contains(value);
    }

    void replace(Value value, Value by) {
        entries.replaceAll(entry -> entry.equals(value) ? by : entry);
    }

    /** Does one of the instructions that only move entries. */
    void move(int code) {
        switch (code) {
            case Opcodes.POP -> pop();
            case Opcodes.POP2 -> words(2);
            case Opcodes.DUP -> copy(1, 0);
            case Opcodes.DUP_X1 -> copy(1, 1);
            case Opcodes.DUP_X2 -> copy(1, 2);
            case Opcodes.DUP2 -> copy(2, 0);
            case Opcodes.DUP2_X1 -> copy(2, 1);
            case Opcodes.DUP2_X2 -> copy(2, 2);
            case Opcodes.SWAP -> push(entries.remove(entries.size() - 2));
            default -> throw new IllegalArgumentException("code " + code);
        }
    }

    /** Puts a copy of the topmost words below so many words more. */
    private void copy(int count, int below) {
        List<Value> top = words(count);
        List<Value> under = words(below);
        entries.addAll(top);
        entries.addAll(under);
        entries.addAll(top);
    }

    /** Takes entries of so many words together. */
    private List<Value> words(int count) {
        int from = entries.size();
        for (int left = count; left > 0; left -= width(entries.get(from))) {
            from--;
        }
        return pop(entries.size() - from);
    }

    private static int width(Value value) {
        Type type = value.type();
        return type == Type.LONG_TYPE || type == Type.DOUBLE_TYPE ? 2 : 1;
    }
}
