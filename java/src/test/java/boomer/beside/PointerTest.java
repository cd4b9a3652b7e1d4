package boomer.beside;

import static org.junit.jupiter.api.Assertions.assertEquals;
import static org.junit.jupiter.api.Assertions.assertNull;

import java.util.List;
import java.util.stream.Stream;
import org.junit.jupiter.api.DynamicTest;
import org.junit.jupiter.api.Test;
import org.junit.jupiter.api.TestFactory;

/** The programs by the categories of PointerBench, beside the JVM. */
class PointerTest {
    @TestFactory
    Stream<DynamicTest> eachProgram() throws Exception {
        var all = Suite.outcomes("pointer", true);
        return all.keySet().stream().map(name -> DynamicTest.dynamicTest(name, () -> {
            assertEquals(List.of(), all.get(name).seen().missing());
            assertNull(all.get(name).driven().difference());
        }));
    }

    @Test
    void howManyThereAre() {
        assertEquals(40, Suite.names("pointer").size());
    }
}
