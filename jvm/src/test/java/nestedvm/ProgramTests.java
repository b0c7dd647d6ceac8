package nestedvm;

import static org.junit.jupiter.api.Assertions.assertEquals;
import static org.junit.jupiter.api.Assertions.assertNotEquals;
import static org.junit.jupiter.api.Assertions.assertThrows;
import static org.junit.jupiter.api.Assertions.assertTrue;
import static org.junit.jupiter.api.Assumptions.assumeTrue;

import java.io.ByteArrayInputStream;
import java.io.ByteArrayOutputStream;
import java.io.File;
import java.io.IOException;
import java.io.InputStream;
import java.util.ArrayList;
import java.util.Arrays;
import java.util.Collections;
import java.util.List;
import java.util.Locale;
import java.util.concurrent.CountDownLatch;
import java.util.concurrent.ExecutorService;
import java.util.concurrent.Executors;
import java.util.concurrent.Future;
import java.util.concurrent.TimeUnit;
import org.junit.jupiter.api.DisplayName;
import org.junit.jupiter.api.Test;

/** Calls of programs: what comes of them, and that one leaves nothing to the next. */
final class ProgramTests {
    /** The threads that call at once: the tables of pages of more have no room in 64 MB. */
    private static final int THREADS = 5;
    private static final int INPUTS = 100;

    private final Program deeds = Guests.program("deeds");

    ProgramTests() throws IOException {
    }

    private static void exited(int status, String output, Result result) {
        assertEquals(Ending.EXITED, result.ending());
        assertEquals(status, result.status());
        assertEquals(output, Texts.text(result.output()));
    }

    private void works() {
        exited(1, "1\nMain\n", deeds.call("count", "name").run());
    }

    @Test
    @DisplayName("the same result twice")
    void sameTwice() {
        exited(0, "366300225\none\n", deeds.call("work", "one").run());
        exited(0, "366300225\none\n", deeds.call("work", "one").run().orThrow());
    }

    @Test
    @DisplayName("a program that counts in its data")
    void countsAnew() {
        for (int i = 0; i < 3; i++) {
            exited(3, "1\n2\n3\n", deeds.call("count", "count", "count").run());
        }
    }

    @Test
    @DisplayName("arguments, name and moment")
    void argumentsArrive() {
        exited(0, "tool\n\u00e4\u4e2d\n86400\n", deeds.call("name", "\u00e4\u4e2d", "time").name("tool").moment(86_400).run());
        assertEquals("Main", deeds.name());
    }

    @Test
    @DisplayName("bytes and streams")
    void streams() {
        Result bytes = deeds.call("echo").input(Texts.bytes("one\ntwo")).run();
        exited(0, "one\ntwo", bytes);
        assertEquals("one\ntwo", Texts.text(bytes.errorOutput()));
        ByteArrayOutputStream both = new ByteArrayOutputStream();
        Result streamed = deeds.call("echo").input(new ByteArrayInputStream(Texts.bytes("a\nb\n"))).output(both).errorOutput(both).run();
        exited(0, "", streamed);
        assertEquals("a\na\nb\nb\n", Texts.text(both.toByteArray()));
    }

    private String echoed(String input) {
        return Texts.text(deeds.call("count", "echo", "count").input(Texts.bytes(input)).run().output());
    }

    @Test
    @DisplayName("five threads of a hundred inputs")
    void threads() throws Exception {
        List<String> expected = new ArrayList<>();
        for (int i = 0; i < INPUTS; i++) {
            expected.add(echoed("input " + i + "\n"));
        }
        ExecutorService pool = Executors.newFixedThreadPool(THREADS);
        try {
            List<Future<String>> found = new ArrayList<>();
            for (int i = 0; i < THREADS * INPUTS; i++) {
                int input = i % INPUTS;
                found.add(pool.submit(() -> echoed("input " + input + "\n")));
            }
            for (int i = 0; i < THREADS * INPUTS; i++) {
                assertEquals(expected.get(i % INPUTS), found.get(i).get());
            }
        } finally {
            pool.shutdown();
            assertTrue(pool.awaitTermination(1, TimeUnit.MINUTES), "a thread does not end");
        }
    }

    @Test
    @DisplayName("a fault, and the same program again")
    void fault() {
        for (int i = 0; i < 2; i++) {
            Result result = deeds.call("before", "fault").run();
            assertEquals(Ending.FAULTED, result.ending());
            assertEquals(79, result.status());
            assertEquals("before\n", Texts.text(result.output()));
            assertEquals(3, result.fault().kind());
            assertEquals(4, result.fault().value());
            assertEquals(result.fault().toString(), result.line());
            assertEquals(result, assertThrows(CallFailed.class, result::orThrow).result());
            works();
        }
    }

    /** Its heap is larger than the memory of this virtual machine. */
    @Test
    @DisplayName("a trap, and the same program again")
    void trap() throws IOException {
        assumeTrue(Runtime.getRuntime().maxMemory() < 100_000_000, "the memory of this virtual machine is large");
        Program large = Guests.program("deeds", "--heap", "32768");
        for (int i = 0; i < 2; i++) {
            Result result = large.call("count").run();
            assertEquals(Ending.TRAPPED, result.ending());
            assertEquals(6, result.trap());
            assertEquals("trap 6", result.line());
        }
        Program trap = Program.of(ProgramTests.class.getClassLoader(), "Trap");
        for (int i = 0; i < 2; i++) {
            Result result = trap.call().run();
            assertEquals(80, result.status());
            assertEquals(4, result.trap());
        }
    }

    @Test
    @DisplayName("streams that throw, and the same program again")
    void brokenStreams() {
        for (int i = 0; i < 2; i++) {
            Result in = deeds.call("echo").input(new BrokenInput("one\ntwo")).run();
            assertEquals(Ending.INPUT_FAILED, in.ending());
            assertEquals(74, in.status());
            assertEquals("one\n", Texts.text(in.output()));
            assertEquals("broken input", in.cause().getMessage());
            works();
            Result out = deeds.call("one").output(new BrokenOutput()).run();
            assertEquals(Ending.OUTPUT_FAILED, out.ending());
            assertEquals(75, out.status());
            assertEquals("broken output", out.cause().getMessage());
            assertEquals(out.cause(), assertThrows(CallFailed.class, out::orThrow).getCause());
            works();
        }
    }

    @Test
    @DisplayName("an interrupt, and the same program again")
    void interrupt() throws Exception {
        List<Result> results = Collections.synchronizedList(new ArrayList<>());
        CountDownLatch reading = new CountDownLatch(1);
        InputStream input = new InputStream() {
            @Override
            public int read() {
                reading.countDown();
                return -1;
            }
        };
        Thread waiting = new Thread(() -> {
            results.add(deeds.call("before", "echo", "wait").input(input).run());
            results.add(deeds.call("count", "name").run());
        });
        waiting.start();
        reading.await();
        waiting.interrupt();
        waiting.join();
        assertEquals(Ending.INTERRUPTED, results.get(0).ending());
        assertEquals(130, results.get(0).status());
        assertEquals("before\n", Texts.text(results.get(0).output()));
        exited(1, "1\nMain\n", results.get(1));
    }

    @Test
    @DisplayName("an interrupt before a program leaves does not take its end away")
    void interruptBeforeTheEnd() {
        Result result = deeds.call("count", "echo").input(new InterruptingInput("x\n")).run();
        assertTrue(Thread.interrupted(), "the thread is no longer interrupted");
        exited(1, "1\nx\n", result);
    }

    @Test
    @DisplayName("output that is gathered has a limit")
    void mostOutput() {
        Result result = deeds.call("flood").mostOutput(10_000).run();
        assertEquals(Ending.OUTPUT_FAILED, result.ending());
        assertEquals("more than 10000 bytes of output are not gathered", result.cause().getMessage());
        assertTrue(result.output().length <= 10_000, "more was gathered");
        exited(1, "1\n", deeds.call("count").mostOutput(2).run());
        assertThrows(IllegalArgumentException.class, () -> deeds.call().mostOutput(-1));
        works();
    }

    @Test
    @DisplayName("a program that takes all memory there is")
    void noMemoryLeft() {
        assumeTrue(Runtime.getRuntime().maxMemory() < 100_000_000, "the memory of this virtual machine is large");
        for (int i = 0; i < 3; i++) {
            Result flood = deeds.call("flood").mostOutput(Integer.MAX_VALUE).run();
            assertEquals("trap 6", flood.line());
            Result grow = deeds.call("grow", "f").run();
            assertEquals("trap 6", grow.line());
            works();
        }
        exited(0, "-28\n", deeds.call("grow", "f").blocks(1000).run());
    }

    @Test
    @DisplayName("a spent meter is fault 12")
    void spentMeter() throws IOException {
        Result result = Guests.program("deeds", "--meter", "1000").call("work").run();
        assertEquals(Ending.FAULTED, result.ending());
        assertEquals(12, result.fault().kind());
    }

    @Test
    @DisplayName("messages have the digits of no language")
    void locale() {
        Locale before = Locale.getDefault();
        Locale.setDefault(Locale.forLanguageTag("ar-EG-u-nu-arab"));
        try {
            assertNotEquals("3", String.format("%d", 3));
            assertTrue(deeds.call("fault").run().line().matches("fault 3 pc [0-9A-F]{8} value 00000004"), "other digits");
        } finally {
            Locale.setDefault(before);
        }
    }

    @Test
    @DisplayName("a call within a stream of a call")
    void callWithinCall() {
        ByteArrayOutputStream lines = new ByteArrayOutputStream() {
            @Override
            public synchronized void write(byte[] bytes, int start, int count) {
                byte[] input = Arrays.copyOfRange(bytes, start, start + count);
                byte[] echo = deeds.call("echo").input(input).run().output();
                super.write(echo, 0, echo.length);
            }
        };
        exited(1, "", deeds.call("one", "count").output(lines).run());
        assertEquals("one\n1\n", Texts.text(lines.toByteArray()));
    }

    @Test
    @DisplayName("what a caller does wrong")
    void refusals() throws IOException {
        assertThrows(IllegalArgumentException.class, () -> deeds.call("a\0b"));
        assertThrows(IllegalArgumentException.class, () -> deeds.call(String.join("", Collections.nCopies(4096, "x"))).run());
        assertThrows(IllegalArgumentException.class, () -> deeds.call().file("", new byte[0]));
        assertThrows(IllegalArgumentException.class, () -> deeds.call().file("a", new byte[4097]).blocks(1).run());
        assertThrows(IllegalArgumentException.class, () -> deeds.call().blocks(65_537));
        assertThrows(IllegalArgumentException.class, () -> Program.inFolder(Guests.classes("deeds"), "Other"));
        assertThrows(IllegalArgumentException.class, () -> Program.of(ProgramTests.class.getClassLoader(), "nestedvm/Texts"));
        works();
    }

    /** Files that are open in this process, where the system tells them. */
    private static int openFiles() {
        String[] files = new File("/proc/self/fd").list();
        return files == null ? 0 : files.length;
    }

    @Test
    @DisplayName("no thread, file or output left")
    void nothingLeft() throws Exception {
        int threads = Thread.getAllStackTraces().size();
        int files = openFiles();
        Program fresh = Guests.program("deeds");
        for (int i = 0; i < 20; i++) {
            fresh.call("count", "echo").input(Texts.bytes("x")).file("f", new byte[10]).run();
            Result open = fresh.call("open", "Main.class").folder(Guests.classes("deeds"), FolderAccess.READ).run();
            exited(0, "3\n", open);
        }
        assertTrue(Thread.getAllStackTraces().size() <= threads, "a thread is left");
        assertTrue(openFiles() <= files, "a file is left open");
    }
}
