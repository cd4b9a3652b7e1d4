package boomer.beside;

import static org.junit.jupiter.api.Assertions.assertAll;
import static org.junit.jupiter.api.Assertions.assertEquals;
import static org.junit.jupiter.api.Assertions.assertNull;

import java.util.List;
import java.util.stream.Stream;
import org.junit.jupiter.api.DynamicTest;
import org.junit.jupiter.api.Test;
import org.junit.jupiter.api.TestFactory;

/** The programs that go through the machine's table, beside the JVM. */
class RowsTest {
    @TestFactory
    Stream<DynamicTest> eachProgram() throws Exception {
        var all = Suite.outcomes("rows", true);
        return all.keySet().stream().map(name -> DynamicTest.dynamicTest(name, () -> {
            Suite.Outcome it = all.get(name);
            assertAll(() -> assertEquals(List.of(), it.seen().missing()), () -> assertNull(it.driven().difference()),
                    () -> assertNull(it.driven().cut()));
        }));
    }

    @Test
    void thereAreThirty() {
        assertEquals(30, Suite.names("rows").size());
    }
}
