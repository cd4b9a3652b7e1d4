package boomer.beside;

import static org.junit.jupiter.api.Assertions.assertEquals;

import java.nio.file.Files;
import java.nio.file.Path;
import java.util.ArrayList;
import java.util.LinkedHashMap;
import java.util.List;
import java.util.Map;
import java.util.Set;
import java.util.TreeSet;
import org.junit.jupiter.api.Test;

/** The machine's table of choices in the manual: the programs go through each row and each choice. */
class TableTest {
    private static final String HEADING = "## The machine of `run`";
    private static final String COLUMNS = "| Statement | Its choices, from 0 |";

    /** What a comparison calls the choices of each row. */
    private static final Map<String, List<String>> ROWS = rows();

    private static Map<String, List<String>> rows() {
        Map<String, List<String>> rows = new LinkedHashMap<>();
        rows.put("`if` | go on; jump", List.of("if 0", "if 1"));
        rows.put("a switch | its labels in written order, the default last",
                List.of("switch label 0", "switch default"));
        rows.put("a cast to a class or an array | take the value; raise `ClassCastException`",
                List.of("reference cast 0", "reference cast 1"));
        rows.put("a cast to a primitive type | take the value: it is a copy, and has one choice",
                List.of("primitive cast 0"));
        rows.put("`newarray`, `newmultiarray` | make it; raise `NegativeArraySizeException`",
                List.of("newarray 0", "newarray 1", "newmultiarray 0", "newmultiarray 1"));
        rows.put("`/`, `%` | give a number; raise `ArithmeticException`", List.of("/ 0", "/ 1", "% 0", "% 1"));
        rows.put("a load of an element, where k were written into the array | null; the first that was written, .. , "
                + "the k-th; raise `ArrayIndexOutOfBoundsException`; and, where the array is one of those of a "
                + "`newmultiarray` and has arrays within it with a length, a new one of these",
                List.of("load empty", "load first", "load later", "load raise", "load inner"));
        rows.put("a store of an element | write it; raise `ArrayIndexOutOfBoundsException`; "
                + "raise `ArrayStoreException`", List.of("store 0", "store 1", "store 2"));
        return rows;
    }

    private static List<String> manual() throws Exception {
        List<String> lines = Files.readAllLines(Path.of("..", "docs", "MANUAL.md"));
        int from = lines.subList(lines.indexOf(HEADING), lines.size()).indexOf(COLUMNS) + lines.indexOf(HEADING) + 2;
        List<String> rows = new ArrayList<>();
        for (int at = from; lines.get(at).startsWith("| "); at++) {
            rows.add(lines.get(at).substring(2, lines.get(at).length() - 2));
        }
        return rows;
    }

    @Test
    void theTableHasTheseRows() throws Exception {
        assertEquals(List.copyOf(ROWS.keySet()), manual());
    }

    @Test
    void eachChoiceIsGoneThrough() throws Exception {
        Set<String> covered = new TreeSet<>();
        Suite.outcomes("rows", true).values().forEach(it -> covered.addAll(it.driven().covered()));
        Set<String> left = new TreeSet<>(Set.of("load null", "store null"));
        ROWS.values().forEach(left::addAll);
        left.removeAll(covered);
        assertEquals(Set.of(), left);
    }
}
