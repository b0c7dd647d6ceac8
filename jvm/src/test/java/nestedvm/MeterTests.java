package nestedvm;

import static org.junit.jupiter.api.Assertions.assertArrayEquals;
import static org.junit.jupiter.api.Assertions.assertEquals;
import static org.junit.jupiter.api.Assertions.assertFalse;
import static org.junit.jupiter.api.Assertions.assertThrows;
import static org.junit.jupiter.api.Assertions.assertTrue;

import java.io.IOException;
import java.time.Duration;
import java.util.ArrayList;
import java.util.List;
import java.util.concurrent.CountDownLatch;
import java.util.concurrent.ExecutorService;
import java.util.concurrent.Executors;
import java.util.concurrent.Future;
import java.util.concurrent.TimeUnit;
import org.junit.jupiter.api.DisplayName;
import org.junit.jupiter.api.Test;

/** Programs and libraries whose classes are metered. */
final class MeterTests {
    private static final String UNBOUNDED = "2147483647";

    private final Program deeds = Guests.program("deeds", "--meter", UNBOUNDED);
    private final Program functions = Guests.program("functions", "--meter", UNBOUNDED);

    MeterTests() throws IOException {
    }

    @Test
    @DisplayName("a run of many slices is the run without a meter")
    void slices() throws IOException {
        Result plain = Guests.program("deeds").call("work", "count", "work").run();
        Result metered = deeds.call("work", "count", "work").run();
        assertEquals(plain.status(), metered.status());
        assertArrayEquals(plain.output(), metered.output());
        assertEquals(plain.status(), deeds.call("work", "count", "work").instructions(1_000_000_000).deadline(Duration.ofMinutes(1)).run().status());
    }

    /** The least number of instructions with which a program is not ended by its meter. */
    private static long needed(Program program, String... arguments) {
        long low = 1;
        long high = 100_000_000;
        while (low < high) {
            long middle = (low + high) / 2;
            if (program.call(arguments).instructions(middle).run().ending() == Ending.EXITED) {
                high = middle;
            } else {
                low = middle + 1;
            }
        }
        return low;
    }

    @Test
    @DisplayName("a number of instructions is kept to the instruction, as by a meter at translation")
    void instructions() throws IOException {
        long few = needed(deeds, "count");
        assertEquals(needed(deeds, "work") - needed(deeds, "nothing"), needed(deeds, "work", "work") - needed(deeds, "work", "nothing") );
        Program exact = Guests.program("deeds", "--meter", Long.toString(few));
        Program less = Guests.program("deeds", "--meter", Long.toString(few - 1));
        assertEquals(Ending.EXITED, exact.call("count").run().ending());
        Result spent = less.call("count").run();
        assertEquals(12, spent.fault().kind());
        assertEquals(spent.line(), deeds.call("count").instructions(few - 1).run().line());
        assertEquals(Ending.EXITED, less.call("count").instructions(few).run().ending());
        assertEquals(spent.line(), exact.call("count").instructions(few - 1).run().line());
    }

    @Test
    @DisplayName("a deadline ends what would go on for ever")
    void deadline() throws IOException {
        for (String deed : new String[] {"spin", "wait", "flood"}) {
            long start = System.nanoTime();
            Result result = deeds.call("count", deed).deadline(Duration.ofMillis(300)).mostOutput(Integer.MAX_VALUE).output(new NoOutput()).run();
            assertEquals(Ending.TIMED_OUT, result.ending());
            assertEquals(124, result.status());
            assertEquals("timed out", result.line());
            assertTrue(System.nanoTime() - start >= 300_000_000, "it ended too early");
            assertEquals("1\n", Texts.text(deeds.call("count").deadline(Duration.ofMinutes(1)).run().output()));
        }
        assertEquals(Ending.TIMED_OUT, deeds.call("spin").deadline(Duration.ZERO).run().ending());
        assertEquals(1, deeds.call("count").deadline(Duration.ofSeconds(Long.MAX_VALUE)).run().status());
    }

    @Test
    @DisplayName("a cancelled future ends a program that only computes")
    void cancel() throws Exception {
        ExecutorService single = Executors.newSingleThreadExecutor();
        CountDownLatch begun = new CountDownLatch(1);
        List<Result> results = new ArrayList<>();
        Future<?> future = single.submit(() -> {
            begun.countDown();
            results.add(deeds.call("spin").run());
        });
        begun.await();
        Thread.sleep(100);
        future.cancel(true);
        single.shutdown();
        assertTrue(single.awaitTermination(1, TimeUnit.MINUTES), "the thread does not end");
        assertEquals(Ending.INTERRUPTED, results.get(0).ending());
    }

    @Test
    @DisplayName("functions with a number of instructions and a deadline, and further calls")
    void library() {
        try (Library library = functions.call().instructions(3_000_000).deadline(Duration.ofMinutes(1)).library()) {
            int next = library.function("next");
            assertEquals(1, library.call(next));
            for (int i = 0; i < 2; i++) {
                CallFailed failed = assertThrows(CallFailed.class, () -> library.call(library.function("spin")));
                assertEquals(12, failed.result().fault().kind());
                assertEquals(2 + i, library.call(next));
            }
            assertEquals(1000, library.call(library.function("deep"), 1000));
        }
        try (Library library = functions.call().deadline(Duration.ofMillis(200)).library()) {
            CallFailed failed = assertThrows(CallFailed.class, () -> library.call(library.function("spin")));
            assertEquals(Ending.TIMED_OUT, failed.result().ending());
            assertEquals(1, library.call(library.function("next")));
        }
    }

    @Test
    @DisplayName("an interrupt ends a function that only computes, and close() of another thread too")
    void stopped() throws Exception {
        Library library = functions.call().library();
        int spin = library.function("spin");
        List<Result> results = new ArrayList<>();
        Thread computing = new Thread(() -> {
            for (int i = 0; i < 2; i++) {
                results.add(assertThrows(CallFailed.class, () -> library.call(spin)).result());
            }
        });
        computing.start();
        Thread.sleep(100);
        computing.interrupt();
        while (results.isEmpty()) {
            Thread.sleep(10);
        }
        Thread.sleep(100);
        library.close();
        computing.join();
        assertEquals(Ending.INTERRUPTED, results.get(0).ending());
        assertEquals(Ending.INTERRUPTED, results.get(1).ending());
        assertThrows(IllegalStateException.class, () -> library.call(spin));
        try (Library other = functions.call().library()) {
            assertEquals(1, other.call(other.function("next")));
        }
    }

    @Test
    @DisplayName("a program without a meter")
    void withoutMeter() throws IOException {
        Program plain = Guests.program("deeds");
        assertThrows(IllegalArgumentException.class, () -> plain.call("count").instructions(10).run());
        assertThrows(IllegalArgumentException.class, () -> plain.call("count").deadline(Duration.ofSeconds(1)).run());
        assertThrows(IllegalArgumentException.class, () -> Guests.program("functions").call().instructions(10).library());
        assertThrows(IllegalArgumentException.class, () -> deeds.call().instructions(0));
        assertEquals("1\n", Texts.text(plain.call("count").run().output()));
        assertFalse(Thread.interrupted(), "the thread is interrupted");
    }
}
