package boomer.beside;

import static org.junit.jupiter.api.Assertions.assertEquals;
import static org.junit.jupiter.api.Assertions.assertNull;
import static org.junit.jupiter.api.Assertions.assertTrue;

import boomer.program.Program;
import boomer.program.ProgramFailed;
import boomer.program.Reply;
import java.util.ArrayList;
import java.util.LinkedHashMap;
import java.util.List;
import java.util.Map;
import java.util.Set;
import org.junit.jupiter.params.ParameterizedTest;
import org.junit.jupiter.params.provider.ValueSource;

/** Whether the comparison with the machine is sharp: each change of one reply at a compared step is told. */
class SharpTest {
    private static final String OTHER = "<Nowhere: void none()> 0 new java.lang.Nothing";

    /** The replies to {@code run}, by their steps, of which one may be another. */
    private static final class Played implements Program {
        private final Program real;
        private final Map<Long, Reply> replies = new LinkedHashMap<>();
        private long changed = -1;
        private List<String> change;

        Played(Program real) {
            this.real = real;
        }

        @Override
        public Reply ask(byte[] input, List<String> words) throws ProgramFailed {
            long step = Long.parseLong(words.get(2));
            if (step == changed) {
                return new Reply.Run(change);
            }
            Reply reply = replies.get(step);
            if (reply == null) {
                reply = real == null ? new Reply.Run(List.of("run x", "steps 0", "end ended")) : real.ask(input, words);
                replies.put(step, reply);
            }
            return reply;
        }

        @Override
        public String name() {
            return "played";
        }

        @Override
        public boolean proved() {
            return false;
        }
    }

    @ParameterizedTest
    @ValueSource(strings = {"Copies", "CellStores", "Unwinding"})
    void eachChangeIsTold(String name) throws Exception {
        var user = Suite.classes("rows");
        Beside beside = Beside.run(Suite.closed(user, name), user);
        Played played = new Played(Suite.program());
        Drive first = beside.driving();
        Drive.Result right = beside.drive(first, played, Suite.MOST_STEPS);
        assertNull(right.difference());
        List<String> silent = new ArrayList<>();
        int changes = 0;
        for (long step : first.comparedAt().keySet()) {
            for (List<String> change : changes(played.replies.get(step).lines(), first.comparedAt().get(step))) {
                played.changed = step;
                played.change = change;
                changes++;
                Drive.Result it = beside.drive(beside.driving(), played, Suite.MOST_STEPS);
                if (it.difference() == null) {
                    silent.add("step " + step + ": " + change.subList(2, change.size()));
                }
            }
        }
        assertEquals(List.of(), silent);
        assertTrue(changes > 100, name + " has only " + changes + " changes");
        System.out.println("sharp: " + name + ", " + changes + " changes of replies, each told");
    }

    /** The reply with one local, the place, the exception or the end changed. */
    private static List<List<String>> changes(List<String> lines, Set<String> compared) {
        List<List<String>> all = new ArrayList<>();
        if (!lines.get(2).equals("end running")) {
            String end = lines.get(2).equals("end ended") ? "end uncaught " + OTHER : "end ended";
            all.add(List.of(lines.get(0), lines.get(1), end));
            all.add(List.of(lines.get(0), lines.get(1), "end ill-typed"));
            return all;
        }
        all.add(List.of(lines.get(0), lines.get(1), "end ended"));
        all.add(List.of(lines.get(0), lines.get(1), "end uncaught " + OTHER));
        all.add(with(lines, 1, "steps " + (Long.parseLong(lines.get(1).substring("steps ".length())) + 1)));
        String at = lines.get(3);
        int raised = at.indexOf(" raised ");
        String place = raised < 0 ? at : at.substring(0, raised);
        int blank = place.lastIndexOf(' ');
        int index = Integer.parseInt(place.substring(blank + 1));
        if (raised >= 0) {
            all.add(with(lines, 3, place + " raised " + OTHER));
            all.add(with(lines, 3, place));
        } else {
            all.add(with(lines, 3, place.substring(0, blank + 1) + (index + 1)));
            all.add(with(lines, 3, place.substring(0, blank + 1) + (index == 0 ? 2 : index - 1)));
            all.add(with(lines, 3, "at <Nowhere: void none()> " + index));
            all.add(with(lines, 3, place + " raised " + OTHER));
        }
        for (int i = 4; i < lines.size(); i++) {
            String[] parts = lines.get(i).split(" ", 3);
            if (compared.contains(parts[1])) {
                all.add(with(lines, i, "local " + parts[1] + " " + (parts[2].equals("null") ? OTHER : "null")));
                all.add(with(lines, i, "local " + parts[1] + " " + OTHER));
                all.add(with(lines, i, "local " + parts[1] + " number"));
            }
        }
        return all;
    }

    private static List<String> with(List<String> lines, int at, String line) {
        List<String> all = new ArrayList<>(lines);
        all.set(at, line);
        return all;
    }
}
