package boomer;

import static org.junit.jupiter.api.Assertions.assertEquals;
import static org.junit.jupiter.api.Assertions.assertTrue;

import java.nio.file.Files;
import java.nio.file.Path;
import java.util.regex.Matcher;
import java.util.regex.Pattern;
import org.junit.jupiter.api.Test;

/** The versions that pom.xml names are those of the jars that build.sh takes. */
final class PomTest {
    private static final Pattern ARTIFACT =
            Pattern.compile("<artifactId>([a-z-]+)</artifactId><version>([0-9.]+)</version>");

    @Test
    void versionsAreThoseOfTheJars() throws Exception {
        Matcher found = ARTIFACT.matcher(Files.readString(Compiled.top().resolve("java/pom.xml")));
        String jars = System.getenv().getOrDefault("JARS", "/usr/share/java");
        int count = 0;
        while (found.find()) {
            Path jar = Path.of(jars, found.group(1) + "-" + found.group(2) + ".jar");
            assertTrue(Files.exists(jar), jar + " isn't there");
            count++;
        }
        assertEquals(7, count);
    }
}
