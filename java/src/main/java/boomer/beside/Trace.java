package boomer.beside;

import boomer.classes.Names;
import java.lang.StackWalker.StackFrame;
import java.util.ArrayDeque;
import java.util.ArrayList;
import java.util.Deque;
import java.util.IdentityHashMap;
import java.util.LinkedHashMap;
import java.util.List;
import java.util.Map;

/**
 * What an instrumented program tells while it runs. Its public methods are called by the program. One program runs at a
 * time, in one thread.
 */
public final class Trace {
    private static final int MOST = 200_000;
    private static Trace now;

    private final Spots spots;
    private final List<String> methods;
    private final List<String> constants;
    private final Map<Object, String> sites = new IdentityHashMap<>();
    private final List<Event> events = new ArrayList<>();
    private final Map<String, List<Event>> initializers = new LinkedHashMap<>();
    private final List<String> finished = new ArrayList<>();
    private final Deque<Opened> open = new ArrayDeque<>();
    private final Deque<Pending> pending = new ArrayDeque<>();
    private int count;
    private Event last;
    private Object cloning;

    /** An initializer that runs. */
    private record Opened(String method, List<Event> events) { }

    /** An object whose constructor runs, and how deep the call stands. */
    private record Pending(Spots.Spot spot, long depth) { }

    Trace(Spots spots, List<String> methods, List<String> constants) {
        this.spots = spots;
        this.methods = methods;
        this.constants = constants;
    }

    /** Runs a program that tells this trace what it does. */
    static void during(Trace trace, Runnable program) {
        synchronized (Trace.class) {
            now = trace;
            try {
                program.run();
            } finally {
                now = null;
            }
        }
    }

    /** What main and what it calls did, without the initializers. */
    List<Event> events() {
        return events;
    }

    /** What each initializer did, by its method. */
    Map<String, List<Event>> initializers() {
        return initializers;
    }

    /** The initializers in the order in which they ended. */
    List<String> finished() {
        return finished;
    }

    /** Whether not all is told, since it was too much. */
    boolean isCut() {
        return count > MOST;
    }

    /** The site of an object, or null where the library made it. */
    String site(Object object) {
        return sites.get(object);
    }

    void know(Object object, String site) {
        sites.putIfAbsent(object, site);
    }

    /** A method begins. */
    public static void enter(int method) {
        String name = now.methods.get(method);
        if (name.contains(" <clinit>(")) {
            now.open.push(new Opened(name, new ArrayList<>()));
        }
        now.add(new Event(Event.Kind.ENTER, name, null, null));
    }

    /** An initializer ends. */
    public static void left(int method) {
        now.add(new Event(Event.Kind.LEFT, now.methods.get(method), null, null));
        now.close();
    }

    /** An instruction is next. */
    public static void at(int spot) {
        Spots.Spot place = now.spots.spot(spot);
        now.last = new Event(Event.Kind.AT, place.method(), place, null);
        now.add(now.last);
    }

    /** What a slot holds before this instruction. */
    public static void slot(Object object, int slot) {
        now.last.slots.put(slot, object);
    }

    /** The array and the index of this instruction. */
    public static void cell(Object array, int index) {
        now.last.array = array;
        now.last.index = index;
    }

    /** The number by which this instruction, a switch, goes. */
    public static void key(int number) {
        now.last.key = number;
    }

    /** A handler begins. */
    public static void caught(Throwable thrown, int method) {
        now.raised(thrown);
        now.add(new Event(Event.Kind.CAUGHT, now.methods.get(method), null, thrown));
    }

    /** An exception leaves a method. */
    public static void exit(Throwable thrown, int method) {
        String name = now.methods.get(method);
        now.raised(thrown);
        now.add(new Event(Event.Kind.EXIT, name, null, thrown));
        if (name.contains(" <clinit>(")) {
            now.close();
        }
    }

    /** The constructor of an object that a NEW made is called. */
    public static void constructing(int spot) {
        now.pending.push(new Pending(now.spots.spot(spot), depth()));
    }

    /** The constructor has returned, and the object is known. */
    public static void constructed(Object object, int spot) {
        while (!now.pending.isEmpty() && now.pending.peek().spot.number() != spot) {
            now.pending.pop();
        }
        now.pending.poll();
        now.know(object, now.spots.spot(spot).made().get(0));
    }

    /** A constructor has called another one, and knows its object. */
    public static void self(Object object) {
        if (!now.pending.isEmpty() && !now.sites.containsKey(object)) {
            now.know(object, now.pending.peek().spot.made().get(0));
        }
    }

    /** An instruction has made an array. */
    public static void made(Object object, int spot) {
        now.madeAll(object, now.spots.spot(spot).made(), 0);
    }

    /** A constant is loaded, or an object whose site has no instruction. */
    public static void constant(Object object, int constant) {
        if (object != null) {
            now.know(object, now.constants.get(constant));
        }
    }

    /** An array is cloned. */
    public static void cloning(Object array) {
        now.cloning = array;
    }

    /** It was cloned. */
    public static void cloned(Object array) {
        now.last.array = now.cloning;
        now.last.cloned = array;
        now.know(array, now.constants.get(0));
    }

    private void add(Event event) {
        if (++count > MOST) {
            throw new IllegalStateException("the program does more than " + MOST + " steps");
        }
        (open.isEmpty() ? events : open.peek().events).add(event);
    }

    private void close() {
        Opened ended = open.pop();
        initializers.put(ended.method, ended.events);
        finished.add(ended.method);
    }

    private void madeAll(Object object, List<String> levels, int level) {
        know(object, levels.get(level));
        if (level + 1 < levels.size()) {
            for (Object each : (Object[]) object) {
                madeAll(each, levels, level + 1);
            }
        }
    }

    /** An exception that the JVM made is of the last statement of the deepest frame, where that is the program's. */
    private void raised(Throwable thrown) {
        long depth = depth();
        while (!pending.isEmpty() && pending.peek().depth >= depth) {
            pending.pop();
        }
        StackTraceElement[] frames = thrown.getStackTrace();
        if (!sites.containsKey(thrown) && frames.length > 0 && last != null
                && last.method.startsWith("<" + Names.plainClass(frames[0].getClassName().replace('.', '/')) + ":")) {
            know(thrown, last.spot.raised(thrown));
        }
    }

    private static long depth() {
        return StackWalker.getInstance().walk(frames -> frames.filter(Trace::isProgram).count());
    }

    private static boolean isProgram(StackFrame frame) {
        return !frame.getClassName().equals(Trace.class.getName());
    }
}
