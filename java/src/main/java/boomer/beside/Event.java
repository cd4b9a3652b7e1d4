package boomer.beside;

import java.util.LinkedHashMap;
import java.util.Map;

/** What an instrumented program told at one time. */
final class Event {
    /** The kinds of events. */
    enum Kind {
        /** A method begins. */
        ENTER,
        /** An instruction that has statements is next. */
        AT,
        /** A handler begins. */
        CAUGHT,
        /** An exception leaves a method. */
        EXIT,
        /** An initializer has ended. */
        LEFT
    }

    final Kind kind;
    final String method;
    /** Of {@code AT} where it is. */
    final Spots.Spot spot;
    final Throwable thrown;
    /** What the slots hold. */
    final Map<Integer, Object> slots = new LinkedHashMap<>();
    /** The array whose element the instruction reads or writes, and the index. */
    Object array;
    int index;
    /** The number by which a switch goes. */
    int key;
    /** What {@code clone} made of an array. */
    Object cloned;

    Event(Kind kind, String method, Spots.Spot spot, Throwable thrown) {
        this.kind = kind;
        this.method = method;
        this.spot = spot;
        this.thrown = thrown;
    }

    @Override
    public String toString() {
        return kind + " " + method + (spot == null ? "" : " " + spot.index()) + (thrown == null ? "" : " " + thrown);
    }
}
