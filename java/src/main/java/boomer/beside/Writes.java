package boomer.beside;

import java.util.HashMap;
import java.util.IdentityHashMap;
import java.util.Map;

/** What was written into arrays: for each index the number of the last write to it, counted for each array from 1. */
final class Writes {
    private final Map<Object, Map<Integer, Integer>> last = new IdentityHashMap<>();
    private final Map<Object, Integer> counts = new IdentityHashMap<>();

    /** Counts a write. */
    void write(Object array, int index) {
        last.computeIfAbsent(array, any -> new HashMap<>()).put(index, counts.merge(array, 1, Integer::sum));
    }

    /** The number of the last write to an index, or 0. */
    int at(Object array, int index) {
        return last.getOrDefault(array, Map.of()).getOrDefault(index, 0);
    }

    /** How many there were. */
    int count(Object array) {
        return counts.getOrDefault(array, 0);
    }
}
