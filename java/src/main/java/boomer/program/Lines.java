package boomer.program;

import java.util.ArrayList;
import java.util.List;

/** The lines of a reply, which are taken one by one. */
final class Lines {
    private final List<String> lines;
    private int at;

    Lines(List<String> lines) {
        this.lines = lines;
    }

    int at() {
        return at;
    }

    boolean isNext(String start) {
        return at < lines.size() && lines.get(at).startsWith(start);
    }

    /** Takes a line with this beginning, and gives the rest of it. */
    String take(String start) throws ProgramFailed {
        if (!isNext(start)) {
            throw new ProgramFailed("the program's reply has no line with `" + start.strip() + "` where one has to be: "
                    + (at < lines.size() ? lines.get(at) : "its end"));
        }
        return lines.get(at++).substring(start.length());
    }

    long number(String start) throws ProgramFailed {
        String word = take(start);
        try {
            return Long.parseLong(word);
        } catch (NumberFormatException e) {
            throw new ProgramFailed("the program's reply has no number behind " + start.strip() + ": " + word);
        }
    }

    void takeCount(String start, int count) throws ProgramFailed {
        if (number(start) != count) {
            throw new ProgramFailed("the program's reply has " + count + " sites and says another number");
        }
    }

    List<Site> sites(String start) throws ProgramFailed {
        List<Site> sites = new ArrayList<>();
        while (isNext(start)) {
            sites.add(Site.of(take(start)));
        }
        return sites;
    }

    List<String> all() {
        int from = at;
        at = lines.size();
        return since(from);
    }

    List<String> since(int from) {
        return List.copyOf(lines.subList(from, at));
    }

    void end() throws ProgramFailed {
        if (at < lines.size()) {
            throw new ProgramFailed("the program's reply has a line too many: " + lines.get(at));
        }
    }
}
