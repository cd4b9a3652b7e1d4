package boomer.ask;

import boomer.close.Rests;
import com.fasterxml.jackson.annotation.JsonInclude;
import com.fasterxml.jackson.annotation.JsonPropertyOrder;
import java.util.ArrayList;
import java.util.List;

/**
 * An answer: a reply of the program with its sources. {@code java/schema/answer.json} describes its fields.
 *
 * @param command the words of the command
 * @param status the program's status
 * @param reply the lines of the reply as they came
 * @param aliases whether two variables may hold one object; null of other questions
 * @param narrowed how many targets of calls are gone; null of other questions
 */
@JsonInclude(JsonInclude.Include.ALWAYS)
@JsonPropertyOrder({"schema", "command", "status", "reply", "standsOn", "place", "sites", "raised", "aliases",
    "narrowed",
    "demanded", "budget"})
public record Answer(String schema, List<String> command, int status, List<String> reply, StandsOn standsOn,
        Asked place, List<Sites.OfAnswer> sites, List<Sites.Raised> raised, Boolean aliases, Long narrowed,
        Long demanded, long budget) {
    /** The version of the form of answers. */
    public static final String SCHEMA = "boomer-java/answer-1";

    /** What an answer stands on. */
    public record StandsOn(String program, boolean proved, Text text, RestsOn rests) { }

    /** The text that was asked. */
    public record Text(long bytes, String sha256) { }

    /** What the text rests on beside the user's classes: the lists of {@code --rests}. */
    public record RestsOn(String summary, List<Rests.OfClass> classes, List<Rests.OfMethod> unknown) { }

    /** The place that was asked. */
    public record Asked(String file, int line, String method, int index, String variable, String local, String when) { }

    /** The answer in words, a line each. */
    public List<String> lines(boolean withRaised, boolean withRests) {
        List<String> lines = new ArrayList<>();
        lines.add(place.file() + ":" + place.line() + "  " + place.variable() + "   (" + place.when()
                + " the line, before "
                + place.index() + " of " + place.method() + ")");
        long made = status == 0 ? found(lines) : 0;
        if (status == 0) {
            excluded(lines);
            raised(lines, withRaised);
            lines.add(made + (made == 1 ? " site" : " sites") + " and " + (sites.size() - made) + " more; demanded "
                    + demanded
                    + " of " + budget + "; " + standing());
        } else {
            lines.add(String.join(" ", reply) + "; " + standing());
        }
        lines.add(standsOn.rests().summary());
        if (withRests) {
            standsOn.rests().classes().forEach(each -> lines.add("  " + each.from().word() + " " + each.name()
                    + (each.keeps() == null ? "" : ": keeps " + each.keeps() + " (covers " + each.covers() + ")")));
            standsOn.rests().unknown().forEach(each -> lines.add("  unknown " + each.method() + ": " + each.why()));
        }
        return lines;
    }

    private long found(List<String> lines) {
        if (aliases != null) {
            lines.add(aliases ? "  they may hold one object, of these sites:" : "  they never hold one object");
        }
        long made = 0;
        for (Sites.OfAnswer each : sites) {
            if (each.kind() != boomer.program.Site.Kind.RAISE && !each.excludedByType()) {
                String what = each.file() == null ? each.site() : each.kind().word() + " " + each.type();
                String where = each.file() == null ? "-" : each.file() + ":" + each.line();
                lines.add("  " + where + "    " + what + (each.source() == null ? "" : "    " + each.source()));
                made++;
            }
        }
        return made;
    }

    private void excluded(List<String> lines) {
        List<String> where = new ArrayList<>();
        for (Sites.OfAnswer each : sites) {
            if (each.excludedByType() && each.kind() != boomer.program.Site.Kind.RAISE) {
                where.add(each.file() == null ? each.site() : each.file() + ":" + each.line());
            }
        }
        if (!where.isEmpty()) {
            lines.add("  " + where.size() + " more, which the type of " + place.variable() + " excludes (not proved): "
                    + String.join(", ", where));
        }
    }

    private void raised(List<String> lines, boolean withRaised) {
        int count = raised.stream().mapToInt(Sites.Raised::count).sum();
        if (count == 0) {
            return;
        }
        List<String> classes = new ArrayList<>();
        raised.forEach(each -> classes.add(each.type().substring(each.type().lastIndexOf('.') + 1) + " "
                + each.count()));
        lines.add("  " + count + " raised by statements (" + String.join(", ", classes) + ")"
                + (withRaised ? "" : "; --raised lists them"));
        for (Sites.Raised each : withRaised ? raised : List.<Sites.Raised>of()) {
            each.sites().forEach(site -> lines.add("    " + site.site() + (site.line() > 0 ? "  " + site.file() + ":"
                    + site.line() : "")));
        }
    }

    private String standing() {
        List<String> words = new ArrayList<>(command);
        return String.join(" ", words) + ", status " + status + ", " + standsOn.program()
                + (standsOn.proved() ? " (proved), " : " (not proved), ")
                + String.format("%,d", standsOn.text().bytes())
                + " bytes";
    }
}
