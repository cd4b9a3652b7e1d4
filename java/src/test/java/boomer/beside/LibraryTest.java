package boomer.beside;

import static org.junit.jupiter.api.Assertions.assertEquals;

import java.util.List;
import java.util.stream.Stream;
import org.junit.jupiter.api.DynamicTest;
import org.junit.jupiter.api.Test;
import org.junit.jupiter.api.TestFactory;

/** The programs over the stubs of the library: each site that was seen is in the answer. */
class LibraryTest {
    @TestFactory
    Stream<DynamicTest> eachProgram() throws Exception {
        var all = Suite.outcomes("library", false);
        return all.keySet().stream().map(name -> DynamicTest.dynamicTest(name, () -> {
            assertEquals(List.of(), all.get(name).seen().missing());

        }));
    }

    @Test
    void howManyThereAre() {
        assertEquals(28, Suite.names("library").size());
    }
}
