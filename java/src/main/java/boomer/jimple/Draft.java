package boomer.jimple;

import java.util.ArrayDeque;
import java.util.ArrayList;
import java.util.BitSet;
import java.util.Deque;
import java.util.List;

/** The lines of a body before its locals are known, and its traps, by the numbers of the lines. */
record Draft(List<Line> lines, List<Trap> traps) {
    /** The same without traps that cover no line, and without lines to which no path leads. */
    Draft pruned() {
        Draft now = new Draft(lines, traps.stream().filter(trap -> trap.from() < trap.to()).toList());
        while (true) {
            BitSet reached = now.reached();
            if (reached.cardinality() == now.lines.size()) {
                return now;
            }
            now = now.only(reached);
        }
    }

    /** The lines that may come behind a line by itself. */
    List<Integer> next(int line) {
        List<Integer> next = new ArrayList<>(lines.get(line).jumps);
        if (lines.get(line).kind.goesOn()) {
            next.add(line + 1);
        }
        return next;
    }

    private BitSet reached() {
        BitSet reached = new BitSet();
        Deque<Integer> waiting = new ArrayDeque<>(List.of(0));
        while (!waiting.isEmpty()) {
            int line = waiting.pop();
            if (line >= lines.size()) {
                throw new IllegalStateException("the end of the code is reached");
            }
            if (reached.get(line)) {
                continue;
            }
            reached.set(line);
            waiting.addAll(next(line));
            for (Trap trap : traps) {
                if (trap.from() <= line && line < trap.to() && !reached.get(trap.handler())) {
                    waiting.add(trap.handler());
                }
            }
        }
        return reached;
    }

    private Draft only(BitSet kept) {
        int[] numbers = new int[lines.size() + 1];
        List<Line> left = new ArrayList<>();
        for (int line = 0; line < lines.size(); line++) {
            numbers[line] = left.size();
            if (kept.get(line)) {
                left.add(lines.get(line));
            }
        }
        numbers[lines.size()] = left.size();
        for (Line line : left) {
            line.jumps = line.jumps.stream().map(number -> numbers[number]).toList();
        }
        return new Draft(left, traps.stream()
                .map(trap -> new Trap(numbers[trap.from()], numbers[trap.to()], numbers[trap.handler()], trap.type()))
                .filter(trap -> trap.from() < trap.to()).toList());
    }
}
