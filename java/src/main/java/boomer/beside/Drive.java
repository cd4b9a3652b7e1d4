package boomer.beside;

import boomer.classes.Names;
import boomer.jimple.Body;
import boomer.jimple.Kind;
import boomer.jimple.Stmt;
import boomer.program.Program;
import boomer.program.ProgramFailed;
import java.util.ArrayDeque;
import java.util.Deque;
import java.util.HashMap;
import java.util.List;
import java.util.Map;
import java.util.Set;
import java.util.TreeMap;
import java.util.TreeSet;

/** Drives the machine step by step along what Java did, and compares each step. */
public final class Drive {
    private static final int MOST_CHOICES = 1_000;
    private static final String CLONE = "<boomer.support.Arrays: java.lang.Object clone(java.lang.Object)>";

    private final Running running;
    private final Spots spots;
    private final Deque<Machine> frames = new ArrayDeque<>();
    private final Map<String, Cursor> cursors = new HashMap<>();
    private final Cursor main;
    private final Choices choices;
    private final StringBuilder digits = new StringBuilder();
    /** The steps that were compared, with the locals that were. */
    private final Map<Long, Set<String>> comparedAt = new TreeMap<>();
    private Standing before;
    private int values;

    /**
     * What came out.
     *
     * @param steps the steps that the machine made
     * @param compared those that an event was compared with
     * @param values the locals that were compared
     * @param difference what differs, or null
     * @param cut why the comparison ended early, or null
     * @param covered which rows and choices of the machine's table were gone through
     */
    public record Result(long steps, int compared, int values, String difference, String cut, Set<String> covered) { }

    Drive(Running running) {
        this.running = running;
        this.spots = running.spots();
        this.main = new Cursor(running.trace().events());
        this.choices = new Choices(spots, running.trace());
        choices.writes().write(running.words(), 0);
        running.trace().initializers().forEach((method, events) -> cursors.put(method, new Cursor(events)));
    }

    /** Drives the machine to its end, or for so many steps. */
    Result drive(Program program, byte[] text, String entry, int most) throws ProgramFailed {
        long steps = 0;
        try {
            frames.push(new Machine("root", null, false));
            while (true) {
                Standing now = Standing.of(program.ask(text, List.of("run", entry, String.valueOf(steps),
                        digits.length() == 0 ? "-" : digits.toString())));
                Difference.unless(now.steps() == steps, "the machine ended after " + now.steps() + " steps");
                if (!now.isRunning()) {
                    end(now);
                    return result(steps, null, null);
                }
                if (steps == most || digits.length() == MOST_CHOICES) {
                    return result(steps, null, "after " + steps + " steps");
                }
                follow(now);
                compare(now);
                digits.append(choices.next(frames.peek(), now));
                before = now;
                steps++;
            }
        } catch (Difference e) {
            String behind = before == null ? "" : " behind " + before.method() + " " + before.index();
            String what = "step " + steps + behind + ": " + e.getMessage();
            return result(steps, e.isCut ? null : what, e.isCut ? what : null);
        }
    }

    private Result result(long steps, String difference, String cut) {
        return new Result(steps, comparedAt.size(), values, difference, cut, choices.covered());
    }

    Map<Long, Set<String>> comparedAt() {
        return comparedAt;
    }

    private Set<String> at(Standing now) {
        return comparedAt.computeIfAbsent(now.steps(), any -> new TreeSet<>());
    }

    /** Takes frames away and puts new ones on top, as the last step did. */
    private void follow(Standing now) {
        if (before == null) {
            return;
        }
        if (before.raised() != null) {
            if (now.raised() != null) {
                frames.pop();
            }
            return;
        }
        Kind kind = before.method().equals("root") ? Kind.CALL : statement(before).kind();
        if (now.raised() == null && kind == Kind.RETURN) {
            frames.pop();
        } else if (now.raised() == null && kind == Kind.CALL
                && !(now.method().equals(before.method()) && now.index() == before.index() + 1)) {
            push(now);
        }
    }

    private void push(Standing now) {
        Machine caller = frames.peek();
        Cursor cursor = caller.cursor;
        if (caller.method.equals("root")) {
            cursor = now.method().contains(" <clinit>(") ? cursors.get(now.method()) : main;
        }
        Machine callee = new Machine(now.method(), cursor, spots.isTraced(now.method()));
        if (now.method().equals(CLONE) && caller.last != null && caller.last.cloned != null) {
            callee.cloning = caller.last;
        }
        frames.push(callee);
    }

    private Stmt statement(Standing at) {
        return spots.body(at.method()).statements().get(at.index());
    }

    private void compare(Standing now) throws Difference {
        Machine frame = frames.peek();
        Difference.unless(frame.method.equals(now.method()),
                "the machine is in " + now.method() + ", not in " + frame.method);
        Body body = spots.body(now.method());
        Difference.unless(now.method().equals("root") || body != null && now.index() < body.statements().size(),
                "there is no statement " + now.index() + " of " + now.method());
        if (!frame.isTraced) {
            return;
        }
        if (now.raised() != null) {
            raised(frame, now);
            return;
        }
        boolean isEntered = before != null && frame.last == null && frame.visits.isEmpty();
        if (isEntered && now.index() == 0) {
            expect(frame, Event.Kind.ENTER, now);
            frame.visits.put(-1, 0);
        }
        Stmt statement = body.statements().get(now.index());
        if (Machine.isFirst(statement, body.firsts().get(statement.instruction()), now.index())) {
            at(frame, now, statement);
        }
    }

    private void raised(Machine frame, Standing now) throws Difference {
        if (!spots.isCovered(now.method(), now.index()) && !isHandled(now)) {
            return;
        }
        Event event = frame.cursor.peek();
        Difference.unless(event != null && (event.kind == Event.Kind.CAUGHT || event.kind == Event.Kind.EXIT)
                && event.method.equals(now.method()),
                "the machine has " + now.raised() + " in flight, and Java goes on with " + event);
        value(event.thrown, now.raised(), "what is in flight");
        frame.cursor.take();
        at(now);
    }

    private boolean isHandled(Standing now) {
        return spots.body(now.method()).traps().stream()
                .anyMatch(trap -> trap.from() <= now.index() && now.index() < trap.to());
    }

    private Event expect(Machine frame, Event.Kind kind, Standing now) throws Difference {
        Event event = frame.cursor.peek();
        Difference.unless(event != null && event.kind == kind && event.method.equals(now.method()),
                "the machine is at " + now.method() + " " + now.index() + ", and Java goes on with " + event);
        at(now);
        return frame.cursor.take();
    }

    private void at(Machine frame, Standing now, Stmt statement) throws Difference {
        Event event = expect(frame, Event.Kind.AT, now);
        Difference.unless(event.spot.instruction() == statement.instruction(),
                "the machine is at " + now.index() + " and Java at " + event.spot.index() + " of " + now.method());
        frame.last = event;
        for (Map.Entry<Integer, Object> slot : event.slots.entrySet()) {
            String local = Names.plainMember(event.spot.held().get(slot.getKey()).name());
            String value = now.locals().get(local);
            Difference.unless(value != null, local + " isn't set");
            value(slot.getValue(), value, local);
            at(now).add(local);
        }
        if (frame.cursor.isNext(Event.Kind.LEFT)) {
            frame.cursor.take();
        }
    }

    private void value(Object object, String value, String what) throws Difference {
        values++;
        String site = object == null ? "null" : running.trace().site(object);
        boolean isSame = site == null ? !value.equals("null") && !value.equals("number") : site.equals(value);
        Difference.unless(isSame, what + " is " + value + ", and in Java " + (site == null ? "an object of "
                + object.getClass().getName() : site));
    }

    private void end(Standing now) throws Difference {
        Throwable thrown = running.thrown();
        Difference.unless(now.end().equals(thrown == null ? "ended" : "uncaught"),
                "the machine is " + now.end() + ", and Java ended with " + thrown);
        if (thrown != null) {
            value(thrown, now.raised(), "what ends the run");
        }
        Difference.unless(main.peek() == null, "the machine ended, and Java goes on with " + main.peek());
        for (Cursor cursor : cursors.values()) {
            Difference.unless(cursor.peek() == null, "the machine ended, and Java goes on with " + cursor.peek());
        }
        at(now);
    }
}
