package boomer.ask;

import boomer.classes.ClassFile;
import boomer.classes.From;
import boomer.close.Closed;
import boomer.jimple.MapFile.OfMethod;
import boomer.program.Site;
import com.fasterxml.jackson.annotation.JsonInclude;
import java.util.ArrayList;
import java.util.List;
import java.util.Map;
import java.util.TreeMap;

/** Tells of the sites of replies where in the sources they are, and which of them a type excludes. */
final class Sites {
    private final Closed closed;
    private final Sources sources;

    /**
     * A site of an answer.
     *
     * @param site as the reply has it
     * @param kind what it is
     * @param type what is made there
     * @param file the source file, or null
     * @param line the line, or 0
     * @param source the text of the line, or null
     * @param from where its class comes from, or null for texts and class constants
     * @param excludedByType whether the variable's type excludes it; that isn't proved
     */
    record OfAnswer(String site, Site.Kind kind, @com.fasterxml.jackson.annotation.JsonProperty("class") String type,
            String file, int line, String source, From from, boolean excludedByType) { }

    /** The exceptions of one class that statements raise by themselves. */
    @JsonInclude
    record Raised(@com.fasterxml.jackson.annotation.JsonProperty("class") String type, int count,
            List<OfAnswer> sites) { }

    Sites(Closed closed, Sources sources) {
        this.closed = closed;
        this.sources = sources;
    }

    /** A site, as what a variable of this type may hold. */
    OfAnswer told(Site site, String type) {
        OfMethod method = site.method() == null ? null : closed.map().method(site.method());
        String file = method == null ? null : method.file();
        int line = method == null ? 0 : method.statements().get(site.index()).line();
        From from = method == null ? null : method.from();
        return new OfAnswer(site.text(), site.kind(), site.type(), file, line, sources.line(file, line), from,
                isExcluded(site.type(), type));
    }

    /** The raised ones by their classes. */
    static List<Raised> raised(List<OfAnswer> sites) {
        Map<String, List<OfAnswer>> byClass = new TreeMap<>();
        for (OfAnswer site : sites) {
            if (site.kind == Site.Kind.RAISE) {
                byClass.computeIfAbsent(site.type, any -> new ArrayList<>()).add(site);
            }
        }
        return byClass.entrySet().stream().map(each -> new Raised(each.getKey(), each.getValue().size(),
                each.getValue()))
                .toList();
    }

    /**
     * Whether a variable of a type can't hold an object of a class: where both are classes, or one is an array.
     * Interfaces aren't looked at, since the JVM's verifier doesn't either.
     */
    private boolean isExcluded(String made, String type) {
        if (type == null || type.equals("java.lang.Object") || made.equals(type)) {
            return false;
        }
        ClassFile wanted = closed.reach().named(type.replace('.', '/'));
        boolean isArray = made.endsWith("[]");
        if (type.endsWith("[]") || isArray) {
            boolean isClass = wanted != null && !wanted.isInterface();
            return isArray ? isClass : type.endsWith("[]");
        }
        ClassFile file = closed.reach().named(made.replace('.', '/'));
        if (wanted == null || file == null || wanted.isInterface()) {
            return false;
        }
        return !closed.reach().isBelow(file, wanted.name());
    }
}
