package boomer.beside;

import boomer.program.ProgramFailed;
import boomer.program.Reply;
import java.util.LinkedHashMap;
import java.util.Map;
import java.util.regex.Matcher;
import java.util.regex.Pattern;

/**
 * How the machine stands.
 *
 * @param end running, ended, uncaught or ill-typed
 * @param raised the site of the exception in flight, or with which it ended; or null
 * @param method the method where it goes on, or null where the run has ended
 * @param locals null, number or a site for each local that is set
 */
record Standing(long steps, String end, String raised, String method, int index, Map<String, String> locals) {
    private static final Pattern AT = Pattern.compile("at (root|<.*>) (\\d+)(?: raised (.*))?");

    /** Reads a reply of {@code run}. */
    static Standing of(Reply reply) throws ProgramFailed {
        if (!(reply instanceof Reply.Run)) {
            throw new ProgramFailed("the program refused: " + reply.lines().get(0));
        }
        var lines = reply.lines();
        expect(lines.size() >= 3 && lines.get(0).startsWith("run "), lines.get(0));
        expect(lines.get(1).startsWith("steps ") && lines.get(2).startsWith("end "), lines.get(1));
        long steps = Long.parseLong(lines.get(1).substring("steps ".length()));
        String end = lines.get(2).substring("end ".length());
        if (!end.equals("running")) {
            expect(lines.size() == 3, lines.get(lines.size() - 1));
            boolean isUncaught = end.startsWith("uncaught ");
            String raised = isUncaught ? end.substring("uncaught ".length()) : null;
            return new Standing(steps, isUncaught ? "uncaught" : end, raised, null, -1, Map.of());
        }
        expect(lines.size() > 3, lines.get(2));
        Matcher place = AT.matcher(lines.get(3));
        expect(place.matches(), lines.get(3));
        Map<String, String> locals = new LinkedHashMap<>();
        for (String line : lines.subList(4, lines.size())) {
            String[] parts = line.split(" ", 3);
            expect(parts.length == 3 && parts[0].equals("local"), line);
            locals.put(parts[1], parts[2]);
        }
        return new Standing(steps, end, place.group(3), place.group(1), Integer.parseInt(place.group(2)), locals);
    }

    private static void expect(boolean holds, String line) throws ProgramFailed {
        if (!holds) {
            throw new ProgramFailed("the program's reply to run isn't of the known form: " + line);
        }
    }

    boolean isRunning() {
        return end.equals("running");
    }
}
