package boomer.beside;

import boomer.classes.Names;
import boomer.jimple.Constant;
import boomer.jimple.Kind;
import boomer.jimple.Local;
import boomer.jimple.Named;
import boomer.jimple.Stmt;
import boomer.jimple.Value;
import java.lang.reflect.Array;
import java.util.List;
import java.util.Set;
import java.util.TreeSet;

/** Reads each choice of the machine off what Java does next. */
final class Choices {
    private static final int DIGITS = 10;
    private static final int PATIENCE = 2;
    private static final String OUT_OF_BOUNDS = "java.lang.ArrayIndexOutOfBoundsException";

    private final Spots spots;
    private final Trace trace;
    private final Writes writes = new Writes();
    /** The rows and choices of the machine's table that were gone through. */
    private final Set<String> covered = new TreeSet<>();

    Choices(Spots spots, Trace trace) {
        this.spots = spots;
        this.trace = trace;
    }

    Writes writes() {
        return writes;
    }

    Set<String> covered() {
        return covered;
    }

    /** The digit that a step takes, or an empty text where it has one choice. */
    String next(Machine frame, Standing now) throws Difference {
        if (now.raised() != null) {
            return "";
        }
        if (now.method().equals("root")) {
            return now.index() == 1 || now.index() == 2 ? "0" : "";
        }
        Stmt statement = spots.body(now.method()).statements().get(now.index());
        int choice = frame.isTraced ? traced(frame, statement, now) : untraced(frame, statement, now);
        if (choice >= DIGITS) {
            throw new Difference("a choice beyond the tenth", true);
        }
        return choice < 0 ? "" : String.valueOf(choice);
    }

    private int traced(Machine frame, Stmt it, Standing now) throws Difference {
        boolean raises = frame.cursor.isNext(Event.Kind.CAUGHT, Event.Kind.EXIT);
        return switch (it.kind()) {
            case IF, SWITCH -> {
                Event next = frame.cursor.peek();
                Difference.unless(next != null && next.kind == Event.Kind.AT && next.method.equals(now.method()),
                        "behind a condition Java goes on with " + next);
                int place = next.spot.index();
                yield it.kind() == Kind.IF ? jump(it, now, place) : label(it, frame.last.key, place);
            }
            case CAST -> covered("reference cast", raises ? 1 : 0);
            case CONVERT -> {
                covered("primitive cast", 0);
                yield -1;
            }
            case NEW_ARRAY -> covered("newarray", raises ? 1 : 0);
            case NEW_ARRAYS -> covered("newmultiarray", raises ? 1 : 0);
            case NUMERIC -> isDivision(it) ? covered(sign(it), raises ? 1 : 0) : -1;
            case LOAD_CELL -> load(frame.last, raises);
            case STORE_CELL -> store(frame.last, raises, frame.cursor.peek());
            default -> -1;
        };
    }

    private int covered(String row, int choice) {
        covered.add(row + " " + choice);
        return choice;
    }

    private int jump(Stmt it, Standing now, int place) throws Difference {
        boolean isNext = place == now.index() + 1;
        Difference.unless(isNext || place == it.jumps().get(0),
                "Java goes on at " + place + " behind the condition " + now);
        return covered("if", isNext ? 0 : 1);
    }

    /** The label that the statement has for the number by which Java goes: there Java has to go on. */
    private int label(Stmt it, int key, int place) throws Difference {
        List<Integer> keys = ((Named.Keys) it.named()).keys();
        int label = keys.contains(key) ? keys.indexOf(key) : keys.size();
        Difference.unless(place == it.jumps().get(label),
                "Java goes on at " + place + " by " + key + ", and the switch at " + it.jumps().get(label));
        covered.add(label == keys.size() ? "switch default" : "switch label " + label);
        return label;
    }

    private static boolean isDivision(Stmt it) {
        return sign(it).equals("/") || sign(it).equals("%");
    }

    private static String sign(Stmt it) {
        return ((Named.Operator) it.named()).sign();
    }

    private int load(Event at, boolean raises) throws Difference {
        if (at.array == null) {
            covered.add("load null");
            return -1;
        }
        if (trace.site(at.array) == null) {
            throw new Difference("an element of an array that the library made", true);
        }
        int count = writes.count(at.array);
        if (raises) {
            covered.add("load raise");
            return count + 1;
        }
        int written = writes.at(at.array, at.index);
        boolean isInner = written == 0 && at.array instanceof Object[] outer && outer[at.index] != null
                && outer.getClass().getComponentType().isArray();
        if (isInner && trace.site(((Object[]) at.array)[at.index]) != null) {
            covered.add("load inner");
            writes.write(at.array, at.index);
            return count + 2;
        }
        covered.add(written == 0 ? "load empty" : written == 1 ? "load first" : "load later");
        return written;
    }

    private int store(Event at, boolean raises, Event next) {
        if (at.array == null) {
            covered.add("store null");
            return -1;
        }
        if (!raises) {
            writes.write(at.array, at.index);
            return covered("store", 0);
        }
        return covered("store", next.thrown.getClass().getName().equals(OUT_OF_BOUNDS) ? 1 : 2);
    }

    /** In code that isn't told the machine goes on by itself. */
    private int untraced(Machine frame, Stmt it, Standing now) {
        return switch (it.kind()) {
            case IF -> condition(frame, it, now);
            case INSTANCE_OF -> tested(frame, it, now);
            case SWITCH, CAST, NEW_ARRAY, NEW_ARRAYS -> 0;
            case NUMERIC -> isDivision(it) ? 0 : -1;
            case LOAD_CELL -> "null".equals(value(it.words().get(0), now)) ? -1 : copied(frame);
            case STORE_CELL -> "null".equals(value(it.words().get(0), now)) ? -1 : kept(frame);
            default -> -1;
        };
    }

    private int copied(Machine frame) {
        return frame.cloning == null ? 0 : Math.min(writes.at(frame.cloning.array, frame.copied), DIGITS);
    }

    private int kept(Machine frame) {
        if (frame.cloning != null) {
            writes.write(frame.cloning.cloned, frame.copied++);
        }
        return 0;
    }

    /** A test of a class is kept for the condition behind it. */
    private int tested(Machine frame, Stmt it, Standing now) {
        String value = value(it.words().get(0), now);
        if (value != null) {
            frame.tests.put(it.to().name(), value.equals("null") ? Boolean.FALSE
                    : spots.isInstance(value, ((Named.OfType) it.named()).type()));
        }
        return -1;
    }

    private int condition(Machine frame, Stmt it, Standing now) {
        if (frame.cloning != null) {
            return frame.copied < Array.getLength(frame.cloning.array) ? 0 : 1;
        }
        String a = value(it.words().get(0), now);
        String b = value(it.words().get(1), now);
        Boolean test = it.words().get(0) instanceof Local local ? frame.tests.get(local.name()) : null;
        if (test != null && it.words().get(1).equals(Constant.ZERO)) {
            return test == sign(it).equals("!=") ? 1 : 0;
        }
        boolean isDecided = a != null && b != null && !a.equals("number") && !b.equals("number")
                && (a.equals("null") || b.equals("null") || !a.equals(b));
        if (isDecided) {
            return a.equals(b) == sign(it).equals("==") ? 1 : 0;
        }
        return frame.visits.merge(now.index(), 1, Integer::sum) > PATIENCE ? 1 : 0;
    }

    /** What a word is in a reply, or null where it isn't known. */
    private static String value(Value word, Standing now) {
        if (word instanceof Local local) {
            return now.locals().get(Names.plainMember(local.name()));
        }
        if (word.type() == null) {
            return "null";
        }
        return List.of('L', '[').contains(word.type().getDescriptor().charAt(0)) ? "constant" : "number";
    }
}
