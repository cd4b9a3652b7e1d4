package boomer.jimple;

import java.util.List;

/**
 * A statement.
 *
 * @param to the local that it defines, or null
 * @param words its operands, in the order in which they are read
 * @param jumps the numbers of the statements to which it may jump, of a switch the default last
 * @param instruction the number of the instruction that it stands for, or -1
 * @param offset the offset of this instruction in the class file, or -1
 * @param line the source line, or 0
 */
public record Stmt(Kind kind, Local to, List<Value> words, List<Integer> jumps, int instruction, int offset, int line,
        Named named) {
    /** The same statement that names something else. */
    public Stmt naming(Named other) {
        return new Stmt(kind, to, words, jumps, instruction, offset, line, other);
    }
}
