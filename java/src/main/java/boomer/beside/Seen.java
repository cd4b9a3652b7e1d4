package boomer.beside;

import boomer.classes.Names;
import boomer.program.Program;
import boomer.program.ProgramFailed;
import boomer.program.Reply;
import boomer.program.Site;
import java.io.ByteArrayOutputStream;
import java.nio.charset.StandardCharsets;
import java.util.ArrayList;
import java.util.LinkedHashMap;
import java.util.LinkedHashSet;
import java.util.List;
import java.util.Map;
import java.util.Set;

/** Compares the answers of the program with what locals held when the JVM went through their places. */
public final class Seen {
    private static final int A_BATCH = 1_000;
    private static final String BUDGET = "1000000";

    private final Map<Place, Set<String>> seen = new LinkedHashMap<>();
    private final List<String> missing = new ArrayList<>();
    private int printed;
    private int ofLibrary;

    /** A local before a statement. */
    private record Place(String method, int index, String local) { }

    /**
     * What came out.
     *
     * @param places the places and locals that the JVM went through
     * @param sites the pairs of these with a site that was seen there
     * @param printed the sites of the answers
     * @param ofLibrary how often a local held what the library made
     * @param missing each site that was seen and isn't in the answer
     */
    public record Result(int places, int sites, int printed, int ofLibrary, List<String> missing) { }

    Seen(Running running) {
        Trace trace = running.trace();
        List<List<Event>> all = new ArrayList<>(trace.initializers().values());
        all.add(trace.events());
        all.forEach(events -> events.forEach(event -> add(event, trace)));
    }

    private void add(Event event, Trace trace) {
        event.slots.forEach((slot, object) -> {
            Place place = new Place(event.method, event.spot.index(),
                    Names.plainMember(event.spot.held().get(slot).name()));
            Set<String> sites = seen.computeIfAbsent(place, any -> new LinkedHashSet<>());
            String site = object == null ? null : trace.site(object);
            if (site != null) {
                sites.add(site);
            } else if (object != null) {
                ofLibrary++;
            }
        });
    }

    /** Asks for each place, and for so many of them with calls refined. */
    Result compare(Program program, byte[] text, String entry, int refined) throws ProgramFailed {
        List<Place> places = List.copyOf(seen.keySet());
        for (int from = 0; from < places.size(); from += A_BATCH) {
            batch(program, text, entry, places.subList(from, Math.min(from + A_BATCH, places.size())));
        }
        int step = Math.max(1, places.size() / Math.max(1, refined));
        for (int at = 0; at < places.size() && at / step < refined; at += step) {
            refined(program, text, entry, places.get(at));
        }
        return new Result(places.size(), seen.values().stream().mapToInt(Set::size).sum(), printed, ofLibrary, missing);
    }

    private void batch(Program program, byte[] text, String entry, List<Place> places) throws ProgramFailed {
        ByteArrayOutputStream input = new ByteArrayOutputStream();
        input.writeBytes(text);
        StringBuilder queries = new StringBuilder("\n%queries\n");
        places.forEach(it -> queries.append(it.index + " " + it.local + " " + it.method + "\n"));
        input.writeBytes(queries.toString().getBytes(StandardCharsets.UTF_8));
        Reply reply = program.ask(input.toByteArray(), List.of("batch", entry, BUDGET));
        if (!(reply instanceof Reply.Batch batch)) {
            throw new ProgramFailed("the program refused: " + reply.lines().get(0));
        }
        for (int i = 0; i < places.size(); i++) {
            check(places.get(i), batch.replies().get(i), "points-to");
        }
    }

    private void refined(Program program, byte[] text, String entry, Place place) throws ProgramFailed {
        List<String> words =
                List.of("refined", entry, place.method, String.valueOf(place.index), place.local, "1", BUDGET);
        check(place, program.ask(text, words), "refined");
    }

    private void check(Place place, Reply reply, String command) {
        List<Site> sites = reply instanceof Reply.PointsTo plain ? plain.sites()
                : reply instanceof Reply.Refined it ? it.sites() : null;
        if (sites == null) {
            missing.add(command + " " + place + ": " + reply.lines().get(0));
            return;
        }
        printed += reply instanceof Reply.PointsTo ? sites.size() : 0;
        for (String site : seen.get(place)) {
            if (sites.stream().noneMatch(each -> each.text().equals(site))) {
                missing.add(command + " " + place + ": " + site);
            }
        }
    }
}
