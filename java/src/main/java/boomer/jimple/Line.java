package boomer.jimple;

import java.util.List;

/** A statement before its locals are known. Its jumps are numbers of instructions, later of lines. */
final class Line {
    final Kind kind;
    final List<Value> words;
    final int instruction;
    final Named named;
    List<Integer> jumps;
    /** What it defines, or null. */
    Variable to;
    /** The instruction at whose end what it defines is there: another one where a store was taken into this line. */
    int storedAt;

    Line(Kind kind, Variable to, List<Value> words, List<Integer> jumps, int instruction, Named named) {
        this.kind = kind;
        this.to = to;
        this.words = words;
        this.jumps = jumps;
        this.instruction = instruction;
        this.storedAt = instruction;
        this.named = named;
    }
}
