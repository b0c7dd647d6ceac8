package nestedvm;

import static org.junit.jupiter.api.Assertions.assertEquals;
import static org.junit.jupiter.api.Assertions.assertNull;
import static org.junit.jupiter.api.Assertions.assertThrows;

import java.io.IOException;
import java.time.Clock;
import java.time.Instant;
import java.time.ZoneId;
import java.time.ZoneOffset;
import org.junit.jupiter.api.DisplayName;
import org.junit.jupiter.api.Test;

/** What a call may choose. */
final class ChoiceTests {
    private static final int SBRK = 7;
    private static final int TIME = 13;
    private static final int NO_MEMORY = -12;

    private final Program deeds = Guests.program("deeds");
    private final Program syscalls = Guests.program("syscalls");

    ChoiceTests() throws IOException {
    }

    /** Whether a library has so many pages of heap, and no more: all of them are zeros and may be written. */
    private static void hasHeap(Library library, int pages) {
        SystemCalls calls = new SystemCalls(library);
        int start = calls.call(SBRK, 0, 0, 0);
        assertEquals(start, calls.call(SBRK, pages << 12, 0, 0));
        assertEquals(NO_MEMORY, calls.call(SBRK, 1, 0, 0));
        for (int i = 0; i < pages; i++) {
            assertEquals(0, library.word(start + (i << 12) + 4092));
            library.setWord(start + (i << 12) + 4092, i);
        }
        assertThrows(IllegalArgumentException.class, () -> library.word(start + (pages << 12)));
        library.close();
    }

    @Test
    @DisplayName("a heap of another size than at translation")
    void heap() {
        for (int pages : new int[] {0, 1, 300, 2000, 1}) {
            hasHeap(syscalls.call().heap(pages).library(), pages);
        }
        hasHeap(syscalls.call().library(), 256);
        assertEquals("1\n", Texts.text(deeds.call("count").heap(0).run().output()));
        assertThrows(IllegalArgumentException.class, () -> deeds.call().heap(-1));
        assertThrows(IllegalArgumentException.class, () -> deeds.call().heap(32_769));
        Program java = Program.of(ChoiceTests.class.getClassLoader(), "Trap");
        assertThrows(IllegalArgumentException.class, () -> java.call().heap(1).run());
    }

    @Test
    @DisplayName("a heap that leaves no room for the files of the program")
    void heapTooLarge() {
        if (Runtime.getRuntime().maxMemory() < 100_000_000) {
            assertEquals("trap 6", deeds.call("count").heap(32_768).run().line());
            assertEquals(6, assertThrows(CallFailed.class, () -> syscalls.call().heap(32_768).library()).result().trap());
        }
    }

    @Test
    @DisplayName("an environment")
    void environment() {
        Result result = deeds.call("arguments").environment("TZ", "UTC").environment("A", "b=c").environment("TZ", "CET").run();
        assertEquals("TZ=CET\nA=b=c\n--\narguments\n", Texts.text(result.output()));
        assertEquals("NESTED_TTY=02\n--\n", Texts.text(deeds.call().terminals(true, false, true).run().output()));
        assertEquals("NESTED_TTY=\n--\n", Texts.text(deeds.call().terminals(false, false, false).run().output()));
        assertThrows(IllegalArgumentException.class, () -> deeds.call().environment("A=", "b"));
        assertThrows(IllegalArgumentException.class, () -> deeds.call().environment("", "b"));
        assertThrows(IllegalArgumentException.class, () -> deeds.call().environment("A", "b\0"));
    }

    /** A clock that goes on by a second when it is asked. */
    private static final class Ticking extends Clock {
        private long seconds = 100;

        @Override
        public ZoneId getZone() {
            return ZoneOffset.UTC;
        }

        @Override
        public Clock withZone(ZoneId zone) {
            return this;
        }

        @Override
        public Instant instant() {
            return Instant.ofEpochSecond(seconds++);
        }
    }

    @Test
    @DisplayName("a clock that runs, and one that stands still")
    void clock() {
        try (SystemCalls calls = new SystemCalls(syscalls.call().clock(new Ticking()).library())) {
            assertEquals(100, calls.call(TIME, 0, 0, 0));
            assertEquals(101, calls.call(TIME, 0, 0, 0));
        }
        try (SystemCalls calls = new SystemCalls(syscalls.call().moment(7).library())) {
            assertEquals(7, calls.call(TIME, 0, 0, 0));
            assertEquals(7, calls.call(TIME, 0, 0, 0));
        }
        assertEquals("2147483647\n", Texts.text(deeds.call("time").moment(-1).run().output()));
    }

    @Test
    @DisplayName("how many copies are kept")
    void copies() throws IOException {
        Program program = Guests.program("deeds");
        for (int most : new int[] {0, 3, 1}) {
            program.keepCopies(most);
            assertEquals("1\n", Texts.text(program.call("count").run().output()));
        }
        assertThrows(IllegalArgumentException.class, () -> program.keepCopies(-1));
    }

    @Test
    @DisplayName("tables of pages are empty again, wherever pages were put")
    void tables() {
        Tables tables = new Tables();
        for (int i = 0; i < 1000; i++) {
            tables.put(i * 500, new int[1024], i % 2 == 0);
        }
        tables.readable()[7] = new int[1];
        tables.writable()[524_287] = new int[1];
        tables.clear();
        for (int i = 0; i < Tables.PAGES; i++) {
            assertNull(tables.readable()[i]);
            assertNull(tables.writable()[i]);
        }
    }
}
