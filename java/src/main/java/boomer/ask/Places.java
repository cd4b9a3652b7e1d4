package boomer.ask;

import boomer.jimple.MapFile;
import boomer.jimple.MapFile.OfLocal;
import boomer.jimple.MapFile.OfMethod;
import boomer.jimple.MapFile.OfStatement;
import java.util.ArrayList;
import java.util.LinkedHashSet;
import java.util.List;
import java.util.Set;
import java.util.TreeSet;

/** Finds places of a text by source files, lines and variables. */
public final class Places {
    private final MapFile map;

    /** The places of the text of a map. */
    public Places(MapFile map) {
        this.map = map;
    }

    /**
     * The places of a variable at a line: behind the last statement of the line that gives the variable its value,
     * where there is one, else before the first statement of the line.
     *
     * @param isBefore whether it is always the latter
     * @throws BadPlace where there is none
     */
    public List<Place> find(String file, int line, String variable, boolean isBefore) throws BadPlace {
        List<Place> places = new ArrayList<>();
        Set<String> names = new TreeSet<>();
        for (OfMethod method : methods(file, line)) {
            find(method, line, variable, isBefore, places);
            for (OfLocal local : method.locals()) {
                if (local.variable() != null) {
                    names.add(local.variable());
                }
            }
        }
        if (places.isEmpty()) {
            String why = names.contains(variable) ? ": " + variable + " has no value there that one local holds"
                    : Near.to(variable, names);
            throw new BadPlace(file + ":" + line + " has no variable " + variable + why);
        }
        return places;
    }

    /** Another variable at the same statement. */
    public Place beside(Place place, String variable) throws BadPlace {
        Set<String> names = new TreeSet<>();
        for (OfLocal local : place.method().locals()) {
            if (local.variable() != null && has(local, place.index())) {
                if (local.variable().equals(variable)) {
                    return new Place(place.method(), place.line(), place.index(), variable, local.name(), place.when());
                }
                names.add(local.variable());
            }
        }
        throw new BadPlace("there is no variable " + variable + " at " + place.method().file() + ":" + place.line()
                + Near.to(variable, names));
    }

    /** All named variables that hold references, of the methods of a line, or of a file where the line is 0. */
    public List<Place> all(String file, int line) throws BadPlace {
        List<Place> places = new ArrayList<>();
        for (OfMethod method : methods(file, line)) {
            for (OfLocal local : method.locals()) {
                if (local.variable() != null && isReference(local.type()) && !local.ranges().isEmpty()) {
                    List<Integer> last = local.ranges().get(local.ranges().size() - 1);
                    int index = last.get(1) - 1;
                    places.add(new Place(method, lineAt(method, index), index, local.variable(), local.name(),
                            "before"));
                }
            }
        }
        return places;
    }

    private static boolean isReference(String type) {
        return type.endsWith("[]") || !Set.of("int", "long", "float", "double", "boolean", "byte", "short", "char")
                .contains(type);
    }

    private static int lineAt(OfMethod method, int index) {
        for (int at = index; at < method.statements().size(); at++) {
            if (method.statements().get(at).line() > 0) {
                return method.statements().get(at).line();
            }
        }
        return 0;
    }

    private List<OfMethod> methods(String file, int line) throws BadPlace {
        List<OfMethod> ofFile = map.methods().stream().filter(method -> isOf(method, file)).toList();
        if (ofFile.isEmpty()) {
            Set<String> files = new TreeSet<>();
            map.methods().stream().filter(method -> method.file() != null).forEach(method -> files.add(method.file()));
            throw new BadPlace(file + ": no class that a run may reach is of this source file" + Near.to(file, files));
        }
        List<OfMethod> ofLine = ofFile.stream().filter(method -> line == 0 || first(method, line) >= 0).toList();
        if (ofLine.isEmpty()) {
            TreeSet<Integer> lines = new TreeSet<>();
            ofFile.forEach(method -> method.statements().forEach(statement -> lines.add(statement.line())));
            Integer next = lines.ceiling(line);
            throw new BadPlace(file + ":" + line + " has no code; "
                    + (next == null ? "the last line that has some is " + lines.last()
                            : "the next line that has some is " + next));
        }
        List<OfMethod> reached = ofLine.stream().filter(OfMethod::reached).toList();
        if (reached.isEmpty()) {
            throw new BadPlace("no run from the entry reaches " + ofLine.get(0).method());
        }
        return reached;
    }

    private static boolean isOf(OfMethod method, String file) {
        return method.file() != null && (method.file().equals(file) || method.file().endsWith("/" + file));
    }

    private static int first(OfMethod method, int line) {
        for (int at = 0; at < method.statements().size(); at++) {
            if (method.statements().get(at).line() == line) {
                return at;
            }
        }
        return -1;
    }

    private static void find(OfMethod method, int line, String variable, boolean isBefore, List<Place> places) {
        Set<Place> found = new LinkedHashSet<>();
        int behind = isBefore ? -1 : behind(method, line, variable);
        int index = behind >= 0 ? behind : first(method, line);
        for (OfLocal local : method.locals()) {
            if (variable.equals(local.variable()) && has(local, index)) {
                found.add(new Place(method, line, index, variable, local.name(), behind >= 0 ? "behind" : "before"));
            }
        }
        places.addAll(found);
    }

    private static boolean has(OfLocal local, int index) {
        return local.ranges().stream().anyMatch(range -> range.get(0) <= index && index < range.get(1));
    }

    /** The statement behind the last one of the line at whose end the variable begins, or has another value; or -1. */
    private static int behind(OfMethod method, int line, String variable) {
        List<OfStatement> statements = method.statements();
        int behind = -1;
        for (int at = 0; at + 1 < statements.size(); at++) {
            if (statements.get(at).line() == line && isDefined(method, at, variable)) {
                behind = at + 1;
            }
        }
        return behind;
    }

    private static boolean isDefined(OfMethod method, int at, String variable) {
        return method.locals().stream()
                .anyMatch(local -> variable.equals(local.variable()) && local.defined().contains(at)
                        && has(local, at + 1));
    }
}
