package boomer.ask;

import java.util.Collection;
import java.util.Comparator;
import java.util.List;
import java.util.stream.Collectors;

/** Names that are near to one that isn't there. */
final class Near {
    private static final int SHOWN = 4;

    private Near() { }

    /** A clause with the nearest names, or nothing where there is no name at all. */
    static String to(String name, Collection<String> names) {
        List<String> nearest = names.stream().distinct()
                .sorted(Comparator.comparing((String each) -> distance(name, each)).thenComparing(each -> each))
                .limit(SHOWN).toList();
        return nearest.isEmpty() ? "" : "; near are " + nearest.stream().collect(Collectors.joining(", "));
    }

    /** How many letters have to be put in, left out or changed. */
    static int distance(String a, String b) {
        int[] row = new int[b.length() + 1];
        for (int j = 0; j <= b.length(); j++) {
            row[j] = j;
        }
        for (int i = 1; i <= a.length(); i++) {
            int diagonal = row[0];
            row[0] = i;
            for (int j = 1; j <= b.length(); j++) {
                int change = diagonal + (a.charAt(i - 1) == b.charAt(j - 1) ? 0 : 1);
                diagonal = row[j];
                row[j] = Math.min(change, 1 + Math.min(row[j], row[j - 1]));
            }
        }
        return row[b.length()];
    }
}
