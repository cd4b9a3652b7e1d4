package boomer.jimple;

import boomer.jimple.Blocks.Block;
import java.util.ArrayList;
import java.util.BitSet;
import java.util.HashMap;
import java.util.List;
import java.util.Map;

/**
 * The webs of a draft: two definitions of a variable are in one web where they reach one use. Each web becomes a local.
 *
 * <p>Along each edge between blocks the web of a variable that is live behind it goes on; where several edges meet,
 * their webs are one. Edges to handlers leave before each line of a block that a trap covers.
 */
final class Webs {
    private final Draft draft;
    private final List<Block> blocks;
    private final Map<Variable, Integer> numbers = new HashMap<>();
    private final List<BitSet> live = new ArrayList<>();
    private final List<Map<Integer, Integer>> entries = new ArrayList<>();
    private final List<Integer> parents = new ArrayList<>();
    private final int[] defined;
    private final int[][] used;

    Webs(Draft draft, List<Block> blocks) {
        this.draft = draft;
        this.blocks = blocks;
        this.defined = new int[draft.lines().size()];
        this.used = new int[draft.lines().size()][];
        for (Line line : draft.lines()) {
            number(line.to);
            line.words.forEach(this::number);
        }
        findLive();
        if (!live.get(0).isEmpty()) {
            throw new IllegalStateException("a variable is read that no path has set");
        }
        for (int block = 0; block < blocks.size(); block++) {
            Map<Integer, Integer> entry = new HashMap<>();
            live.get(block).stream().forEach(variable -> entry.put(variable, fresh()));
            entries.add(entry);
        }
        for (int block = 0; block < blocks.size(); block++) {
            join(block);
        }
    }

    /** The web that a line defines. */
    int defined(int line) {
        return find(defined[line]);
    }

    /** The web of the word of a line at this place, which is a variable. */
    int used(int line, int word) {
        return find(used[line][word]);
    }

    private void number(Value value) {
        if (value instanceof Variable variable) {
            numbers.putIfAbsent(variable, numbers.size());
        }
    }

    private void findLive() {
        List<BitSet> reads = new ArrayList<>();
        List<BitSet> writes = new ArrayList<>();
        for (Block block : blocks) {
            live.add(new BitSet());
            BitSet read = new BitSet();
            BitSet written = new BitSet();
            for (int at = block.from(); at < block.to(); at++) {
                Line line = draft.lines().get(at);
                for (Value word : line.words) {
                    if (word instanceof Variable variable && !written.get(numbers.get(variable))) {
                        read.set(numbers.get(variable));
                    }
                }
                if (line.to != null) {
                    written.set(numbers.get(line.to));
                }
            }
            reads.add(read);
            writes.add(written);
        }
        boolean changes = true;
        while (changes) {
            changes = false;
            for (int block = blocks.size() - 1; block >= 0; block--) {
                BitSet before = new BitSet();
                blocks.get(block).next().forEach(next -> before.or(live.get(next)));
                before.andNot(writes.get(block));
                before.or(reads.get(block));
                blocks.get(block).handlers().forEach(handler -> before.or(live.get(handler)));
                if (!before.equals(live.get(block))) {
                    live.set(block, before);
                    changes = true;
                }
            }
        }
    }

    private void join(int number) {
        Block block = blocks.get(number);
        Map<Integer, Integer> now = new HashMap<>(entries.get(number));
        block.handlers().forEach(handler -> unite(now, entries.get(handler)));
        for (int at = block.from(); at < block.to(); at++) {
            Line line = draft.lines().get(at);
            used[at] = new int[line.words.size()];
            for (int i = 0; i < line.words.size(); i++) {
                if (line.words.get(i) instanceof Variable variable) {
                    used[at][i] = now.get(numbers.get(variable));
                }
            }
            if (line.to != null) {
                int variable = numbers.get(line.to);
                defined[at] = fresh();
                now.put(variable, defined[at]);
                for (int handler : at + 1 < block.to() ? block.handlers() : List.<Integer>of()) {
                    if (entries.get(handler).containsKey(variable)) {
                        unite(entries.get(handler).get(variable), defined[at]);
                    }
                }
            }
        }
        block.next().forEach(next -> unite(now, entries.get(next)));
    }

    private void unite(Map<Integer, Integer> before, Map<Integer, Integer> entry) {
        entry.forEach((variable, web) -> unite(web, before.get(variable)));
    }

    private int fresh() {
        parents.add(parents.size());
        return parents.size() - 1;
    }

    private int find(int web) {
        int root = web;
        while (parents.get(root) != root) {
            root = parents.get(root);
        }
        while (parents.get(web) != root) {
            web = parents.set(web, root);
        }
        return root;
    }

    private void unite(int a, int b) {
        parents.set(find(a), find(b));
    }
}
