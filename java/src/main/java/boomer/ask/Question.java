package boomer.ask;

import boomer.classes.ClassFile;
import boomer.classes.Names;
import boomer.close.Closed;
import boomer.jimple.MapFile.OfLocal;
import boomer.program.Program;
import boomer.program.ProgramFailed;
import boomer.program.Reply;
import boomer.program.Site;
import java.io.ByteArrayOutputStream;
import java.nio.charset.StandardCharsets;
import java.security.MessageDigest;
import java.security.NoSuchAlgorithmException;
import java.util.ArrayList;
import java.util.HexFormat;
import java.util.List;
import org.objectweb.asm.tree.FieldNode;

/** Asks the program what variables of a closed text may hold. */
public final class Question {
    private static final int FIRST_BUDGET = 20_000;
    private static final int QUERIES = 1_000;

    private final Closed closed;
    private final Program program;
    private final Sites sites;
    private final long budget;
    private final Answer.StandsOn standsOn;

    /** Questions over a closed text; an answer demands at most so many nodes. */
    public Question(Closed closed, Program program, Sources sources, long budget) {
        this.closed = closed;
        this.program = program;
        this.sites = new Sites(closed, sources);
        this.budget = budget;
        this.standsOn = new Answer.StandsOn(program.name(), program.proved(),
                new Answer.Text(closed.text().length, sha256(closed.text())),
                new Answer.RestsOn(closed.rests().summary(), closed.rests().classes(), closed.rests().methods()));
    }

    /** What a variable may hold: by {@code refined} with so many rounds, or by {@code points-to} where they are 0. */
    public Answer holds(Place place, int rounds) throws ProgramFailed {
        List<String> words = new ArrayList<>(List.of(rounds == 0 ? "points-to" : "refined"));
        words.addAll(at(place));
        if (rounds > 0) {
            words.add(String.valueOf(rounds));
        }
        return ask(place, words);
    }

    /** Whether two variables of one place may hold one object. */
    public Answer alias(Place place, Place second) throws ProgramFailed {
        List<String> words = new ArrayList<>(List.of("alias"));
        words.addAll(at(place));
        words.add(spelled(second.local()));
        return ask(place, words);
    }

    /**
     * What fields lead to from a variable.
     *
     * @param fields the names of fields, or {@code []} for the elements of an array
     * @throws BadPlace where a class has no such field
     */
    public Answer path(Place place, List<String> fields) throws ProgramFailed, BadPlace {
        List<String> words = new ArrayList<>(List.of("paths"));
        words.addAll(at(place));
        words.add(String.join(",", parts(local(place).type(), fields)));
        return ask(place, words);
    }

    /** What each of several variables may hold, by one {@code batch} for each 1,000. */
    public List<Answer> all(List<Place> places) throws ProgramFailed {
        List<Answer> answers = new ArrayList<>();
        for (int from = 0; from < places.size(); from += QUERIES) {
            List<Place> some = places.subList(from, Math.min(places.size(), from + QUERIES));
            ByteArrayOutputStream input = new ByteArrayOutputStream();
            input.writeBytes(closed.text());
            StringBuilder queries = new StringBuilder("\n%queries\n");
            some.forEach(place -> queries.append(place.index()).append(' ').append(spelled(place.local())).append(' ')
                    .append(place.method().method()).append('\n'));
            input.writeBytes(queries.toString().getBytes(StandardCharsets.UTF_8));
            List<String> words = List.of("batch", closed.entry(), String.valueOf(budget));
            Reply reply = program.ask(input.toByteArray(), words);
            if (!(reply instanceof Reply.Batch batch)) {
                return List.of(told(some.get(0), words, reply, budget));
            }
            for (int i = 0; i < some.size(); i++) {
                answers.add(told(some.get(i), words, batch.replies().get(i), budget));
            }
        }
        return answers;
    }

    private List<String> at(Place place) {
        return List.of(closed.entry(), place.method().method(), String.valueOf(place.index()), spelled(place.local()));
    }

    private static String spelled(String local) {
        return Names.plainMember(local);
    }

    private Answer ask(Place place, List<String> words) throws ProgramFailed {
        long now = Math.min(FIRST_BUDGET, budget);
        while (true) {
            List<String> command = new ArrayList<>(words);
            command.add(String.valueOf(now));
            Reply reply = program.ask(closed.text(), command);
            boolean isOver = reply instanceof Reply.Refused refused && refused.is("OverBudget");
            if (!isOver || now >= budget) {
                return told(place, command, reply, now);
            }
            now = Math.min(2 * now, budget);
        }
    }

    private Answer told(Place place, List<String> command, Reply reply, long budget) {
        Answer.Asked asked = new Answer.Asked(place.method().file(), place.line(), place.method().method(),
                place.index(),
                place.variable(), place.local(), place.when());
        boolean isPath = command.get(0).equals("paths");
        String type = isPath ? null : local(place).type();
        Boolean aliases = null;
        Long narrowed = null;
        Long demanded = null;
        List<Site> found = List.of();
        int status = 0;
        if (reply instanceof Reply.PointsTo it) {
            found = it.sites();
            demanded = it.demanded();
        } else if (reply instanceof Reply.Refined it) {
            found = it.sites();
            demanded = it.demanded();
            narrowed = it.narrowed();
        } else if (reply instanceof Reply.Alias it) {
            found = it.shared();
            demanded = it.demanded();
            aliases = it.may();
        } else if (reply instanceof Reply.Refused it) {
            status = it.status();
        }
        List<Sites.OfAnswer> told = found.stream().map(site -> sites.told(site, type)).toList();
        return new Answer(Answer.SCHEMA, command, status, reply.lines(), standsOn, asked, told, Sites.raised(told),
                aliases,
                narrowed, demanded, budget);
    }

    private static OfLocal local(Place place) {
        return place.method().locals().stream().filter(each -> each.name().equals(place.local())).findFirst()
                .orElseThrow();
    }

    /** The parts of a path, each with the class that declares the field. */
    private List<String> parts(String type, List<String> fields) throws BadPlace {
        List<String> parts = new ArrayList<>();
        String now = type;
        for (String field : fields) {
            if (field.equals("[]")) {
                parts.add("[]");
                now = now.endsWith("[]") ? now.substring(0, now.length() - 2) : "java.lang.Object";
                continue;
            }
            FieldNode found = null;
            ClassFile owner = closed.reach().named(now.replace('.', '/'));
            List<String> names = new ArrayList<>();
            while (owner != null && found == null) {
                for (FieldNode each : owner.node().fields) {
                    names.add(each.name);
                    found = each.name.equals(field) && found == null ? each : found;
                }
                if (found == null) {
                    owner = owner.node().superName == null ? null : closed.reach().named(owner.node().superName);
                }
            }
            if (found == null) {
                throw new BadPlace(now + " has no field " + field + Near.to(field, names));
            }
            parts.add(Names.plainClass(owner.name()) + ":" + Names.plainMember(field));
            now = Names.plainType(org.objectweb.asm.Type.getType(found.desc));
        }
        return parts;
    }

    private static String sha256(byte[] bytes) {
        try {
            return HexFormat.of().formatHex(MessageDigest.getInstance("SHA-256").digest(bytes));
        } catch (NoSuchAlgorithmException e) {
            throw new IllegalStateException(e);
        }
    }
}
