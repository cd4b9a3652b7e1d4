package boomer.program;

import java.util.regex.Matcher;
import java.util.regex.Pattern;

/**
 * A site of a reply.
 *
 * @param text its text in the reply
 * @param method the method of its place, or null
 * @param index the statement of its place, or -1
 * @param type what is made there, as replies spell types
 */
public record Site(String text, Kind kind, String method, int index, String type) {
    private static final Pattern AT_PLACE = Pattern.compile(
            "(root|<[^<>]*(?:<(?:init|clinit)>[^<>]*)?>) (\\d+) (new|raise) (\\S+)");

    /** The kinds of sites. */
    public enum Kind {
        /** An object that a statement makes. */
        NEW,
        /** An exception that a statement raises by itself. */
        RAISE,
        /** A text. */
        TEXT,
        /** A class constant. */
        CLASS;

        /** The word of answers. */
        @com.fasterxml.jackson.annotation.JsonValue
        public String word() {
            return name().toLowerCase(java.util.Locale.ROOT);
        }
    }

    static Site of(String text) throws ProgramFailed {
        if (text.startsWith("text \"")) {
            return new Site(text, Kind.TEXT, null, -1, "java.lang.String");
        }
        if (text.startsWith("class \"")) {
            return new Site(text, Kind.CLASS, null, -1, "java.lang.Class");
        }
        Matcher found = AT_PLACE.matcher(text);
        if (!found.matches()) {
            throw new ProgramFailed("the program replied a site that isn't of the known form: " + text);
        }
        Kind kind = found.group(3).equals("new") ? Kind.NEW : Kind.RAISE;
        return new Site(text, kind, found.group(1), Integer.parseInt(found.group(2)), found.group(4));
    }
}
