package boomer.jimple;

import java.util.ArrayList;
import java.util.BitSet;
import java.util.List;

/** The blocks of a draft: each lies wholly in a trap's range or outside. */
final class Blocks {
    /**
     * A block: the lines from {@code from} up to, not including, {@code to}.
     *
     * @param next the blocks that may come behind its last line
     * @param handlers the blocks to which each of its lines may raise
     */
    record Block(int from, int to, List<Integer> next, List<Integer> handlers) { }

    private Blocks() { }

    /** The blocks in order. */
    static List<Block> of(Draft draft) {
        int count = draft.lines().size();
        BitSet starts = new BitSet();
        starts.set(0);
        for (int line = 0; line < count; line++) {
            Line each = draft.lines().get(line);
            each.jumps.forEach(starts::set);
            if (!each.jumps.isEmpty() || !each.kind.goesOn()) {
                starts.set(line + 1);
            }
        }
        for (Trap trap : draft.traps()) {
            starts.set(trap.from());
            starts.set(trap.to());
            starts.set(trap.handler());
        }
        int[] blockAt = new int[count];
        List<Integer> froms = new ArrayList<>();
        for (int line = 0; line < count; line++) {
            if (starts.get(line)) {
                froms.add(line);
            }
            blockAt[line] = froms.size() - 1;
        }
        List<Block> blocks = new ArrayList<>();
        for (int i = 0; i < froms.size(); i++) {
            int from = froms.get(i);
            int to = i + 1 < froms.size() ? froms.get(i + 1) : count;
            List<Integer> handlers = draft.traps().stream().filter(trap -> trap.from() <= from && from < trap.to())
                    .map(trap -> blockAt[trap.handler()]).distinct().toList();
            List<Integer> next = draft.next(to - 1).stream().map(line -> blockAt[line]).distinct().toList();
            blocks.add(new Block(from, to, next, handlers));
        }
        return blocks;
    }
}
