package nestedvm;

import static org.junit.jupiter.api.Assertions.assertEquals;
import static org.junit.jupiter.api.Assertions.assertTrue;
import static org.junit.jupiter.api.Assumptions.assumeTrue;

import java.lang.management.ManagementFactory;
import java.lang.management.MemoryPoolMXBean;
import org.junit.jupiter.api.BeforeAll;
import org.junit.jupiter.api.DisplayName;
import org.junit.jupiter.api.Test;

/** A thousand calls in little memory, of which none leaves classes behind. Run it with {@code -Xmx64m}. */
final class MemoryTests {
    private static final int CALLS = 1000;
    private static final int LIBRARIES = 200;

    /** Metaspace grows a little while code is compiled, but a copy of the classes of a program takes more than this. */
    private static final long SLACK_BYTES = 200_000;

    @BeforeAll
    static void needSmallHeap() {
        assumeTrue(Runtime.getRuntime().maxMemory() < 100_000_000, "these tests are for -Xmx64m");
    }

    private static long metaspace() {
        for (MemoryPoolMXBean pool : ManagementFactory.getMemoryPoolMXBeans()) {
            if (pool.getName().equals("Metaspace")) {
                return pool.getUsage().getUsed();
            }
        }
        return 0;
    }

    @Test
    @DisplayName("a thousand calls in 64 MB, with constant metaspace")
    void calls() throws Exception {
        Program deeds = Guests.program("deeds");
        long before = 0;
        for (int i = 0; i < CALLS; i++) {
            assertEquals("1\n", Texts.text(deeds.call("count", "echo").input(new byte[0]).run().output()));
            before = i == CALLS / 10 ? metaspace() : before;
        }
        assertTrue(metaspace() - before < SLACK_BYTES, "metaspace went from " + before + " to " + metaspace());
    }

    @Test
    @DisplayName("two hundred libraries in 64 MB, with constant metaspace")
    void libraries() throws Exception {
        Program functions = Guests.program("functions");
        long before = 0;
        for (int i = 0; i < LIBRARIES; i++) {
            try (Library library = functions.call().library()) {
                assertEquals(1, library.call(library.function("next")));
            }
            before = i == LIBRARIES / 10 ? metaspace() : before;
        }
        assertTrue(metaspace() - before < SLACK_BYTES, "metaspace went from " + before + " to " + metaspace());
    }
}
