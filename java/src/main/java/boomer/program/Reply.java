package boomer.program;

import java.util.ArrayList;
import java.util.List;

/** A reply of the program, of a known form; each line of it is told once. */
public sealed interface Reply {
    /** The status of a place that isn't there. */
    int NO_PLACE = 7;
    /** The status of an answer that demands too much. */
    int OVER_BUDGET = 11;

    /** The lines as they came. */
    List<String> lines();

    /** Sites of a place: the reply of {@code points-to} and of {@code paths}. */
    record PointsTo(List<String> lines, List<Site> sites, long demanded) implements Reply { }

    /** Sites of a place, after calls have lost targets: the reply of {@code refined}. */
    record Refined(List<String> lines, List<Site> sites, long narrowed, long demanded) implements Reply { }

    /** Sites that two locals share: the reply of {@code alias}. */
    record Alias(List<String> lines, List<Site> shared, boolean may, long demanded) implements Reply { }

    /** The replies to several queries, each {@link PointsTo} or {@link Refused}. */
    record Batch(List<String> lines, List<Reply> replies) implements Reply { }

    /** Where the machine stands: the reply of {@code run}. */
    record Run(List<String> lines) implements Reply { }

    /** A refusal: what stands behind {@code refused}, and the status. */
    record Refused(List<String> lines, List<String> words, int status) implements Reply {
        /** Whether it is of this kind: the first word of the refusal, or its first two. */
        public boolean is(String... first) {
            return words.size() >= first.length && words.subList(0, first.length).equals(List.of(first));
        }
    }

    /**
     * Reads a reply.
     *
     * @throws ProgramFailed where a line isn't of the known form
     */
    static Reply of(String text, int status, String command) throws ProgramFailed {
        List<String> lines = List.of(text.isEmpty() ? new String[0] : text.split("\n"));
        if (status != 0) {
            if (lines.size() != 1 || !lines.get(0).startsWith("refused ")) {
                throw new ProgramFailed("the program ended with status " + status + " and " + lines.size() + " lines");
            }
            return refused(lines.get(0), status);
        }
        Lines left = new Lines(lines);
        Reply reply = switch (command) {
            case "points-to", "paths" -> pointsTo(left, command);
            case "refined" -> refined(left);
            case "alias" -> alias(left);
            case "batch" -> batch(left);
            case "run" -> new Run(left.all());
            default -> throw new ProgramFailed("no reply of " + command + " is known");
        };
        left.end();
        return reply;
    }

    private static Refused refused(String line, int status) {
        return new Refused(List.of(line), List.of(line.substring("refused ".length()).split(" ")), status);
    }

    private static PointsTo pointsTo(Lines left, String command) throws ProgramFailed {
        int from = left.at();
        left.take(command + " ");
        List<Site> sites = left.sites("site ");
        left.takeCount("sites ", sites.size());
        long demanded = left.number("demanded ");
        return new PointsTo(left.since(from), sites, demanded);
    }

    private static Refined refined(Lines left) throws ProgramFailed {
        left.take("refined ");
        long narrowed = left.number("narrowed ");
        List<Site> sites = left.sites("site ");
        left.takeCount("sites ", sites.size());
        long demanded = left.number("demanded ");
        return new Refined(left.since(0), sites, narrowed, demanded);
    }

    private static Alias alias(Lines left) throws ProgramFailed {
        left.take("alias ");
        List<Site> shared = left.sites("shared ");
        String may = left.take("aliases ");
        if (may.equals("yes") == shared.isEmpty()) {
            throw new ProgramFailed("the program replied aliases " + may + " with " + shared.size() + " shared sites");
        }
        return new Alias(left.since(0), shared, may.equals("yes"), left.number("demanded "));
    }

    private static Batch batch(Lines left) throws ProgramFailed {
        long count = left.number("batch ");
        List<Reply> replies = new ArrayList<>();
        while (replies.size() < count) {
            if (left.isNext("refused ")) {
                String line = "refused " + left.take("refused ");
                replies.add(refused(line, line.startsWith("refused OverBudget") ? OVER_BUDGET : NO_PLACE));
            } else {
                replies.add(pointsTo(left, "points-to"));
            }
        }
        return new Batch(left.since(0), replies);
    }
}
