package boomer.beside;

import java.util.List;

/** Events that are taken one by one. */
final class Cursor {
    private final List<Event> events;
    private int at;

    Cursor(List<Event> events) {
        this.events = events;
    }

    /** The next event, or null. */
    Event peek() {
        return at < events.size() ? events.get(at) : null;
    }

    Event take() {
        return events.get(at++);
    }

    /** The one behind the next, or null. */
    boolean isNext(Event.Kind... kinds) {
        Event next = peek();
        return next != null && List.of(kinds).contains(next.kind);
    }
}
