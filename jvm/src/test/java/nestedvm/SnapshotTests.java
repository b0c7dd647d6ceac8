package nestedvm;

import static org.junit.jupiter.api.Assertions.assertArrayEquals;
import static org.junit.jupiter.api.Assertions.assertEquals;
import static org.junit.jupiter.api.Assertions.assertFalse;
import static org.junit.jupiter.api.Assertions.assertNotNull;
import static org.junit.jupiter.api.Assertions.assertThrows;
import static org.junit.jupiter.api.Assertions.assertTrue;

import java.io.IOException;
import java.nio.file.Files;
import java.nio.file.Path;
import java.time.Duration;
import java.util.Arrays;
import java.util.HashMap;
import java.util.Map;
import java.util.Random;
import org.junit.jupiter.api.DisplayName;
import org.junit.jupiter.api.Test;

/** Runs in slices, and snapshots that go on in new classes. */
final class SnapshotTests {
    private static final int CALLS = Integer.getInteger("nested.soak", 2_000);

    /** The deeds of a program that has files, folders, devices and descriptors of all kinds open. */
    private static final String[] DEEDS = {
        "name", "count", "copy", "a", "b", "hold", "b", "/dev/nested/environment", "/dev/zero", "time", "rename", "a", "c", "open", "c", "echo", "grow", "d",
        "remove", "d", "count", "fault"};

    private final Path metered = Guests.classes("deeds", "--meter", "2147483647");

    SnapshotTests() throws IOException {
    }

    private static Call begin(Program program, String... arguments) {
        byte[] file = Texts.bytes("a file of 23 characters");
        return program.call(arguments).moment(1_000_000_000).blocks(16).file("a", file).input(Texts.bytes("one\ntwo\nthree\n"));
    }

    /** The program, in classes of its own. */
    private Program anew() throws IOException {
        return Program.inFolder(metered, "Main");
    }

    private static Execution goOn(Program program, byte[] snapshot) {
        return program.call(Snapshot.of(snapshot)).start();
    }

    private static Map<String, String> texts(Result result) {
        Map<String, String> files = new HashMap<>();
        result.files().forEach((name, bytes) -> files.put(name, Texts.text(bytes)));
        return files;
    }

    private static void compare(Result expected, Result result) {
        assertEquals(expected.toString(), result.toString());
        assertEquals(Texts.text(expected.output()), Texts.text(result.output()));
        assertEquals(Texts.text(expected.errorOutput()), Texts.text(result.errorOutput()));
        assertEquals(texts(expected), texts(result));
    }

    @Test
    @DisplayName("a program that is left at each of its calls and goes on in new classes does what it does undisturbed")
    void atEachCall() throws IOException {
        Program plain = Guests.program("deeds");
        Result expected = begin(plain, DEEDS).run();
        assertEquals(Ending.FAULTED, expected.ending());
        Execution execution = begin(anew(), DEEDS).start();
        int calls = 0;
        while (execution.runToCall()) {
            byte[] snapshot = execution.snapshot().bytes();
            assertArrayEquals(snapshot, Snapshot.of(snapshot).bytes());
            assertEquals(execution.instructions(), Snapshot.of(snapshot).instructions());
            execution.close();
            compare(expected, plain.call(Snapshot.of(snapshot)).run());
            execution = goOn(anew(), snapshot);
            calls++;
        }
        compare(expected, execution.result());
        assertTrue(calls > 50, "only " + calls + " calls");
    }

    @Test
    @DisplayName("slices of any size make the same run, and their sum is its count")
    void slices() throws IOException {
        Program program = anew();
        Result expected = begin(program, DEEDS).run();
        long count = 0;
        for (int size : new int[] {1_000_000, 1, 2, 3, 100}) {
            Execution execution = begin(program, DEEDS).start();
            long given = 1;
            while (execution.runFor(size)) {
                given += size;
                assertTrue(given - execution.instructions() <= 1, "a slice was not made");
            }
            compare(expected, execution.result());
            count = count == 0 ? execution.instructions() : count;
            assertEquals(count, execution.instructions());
        }
        Result enough = begin(program, DEEDS).instructions(count).run();
        compare(expected, enough);
        assertEquals(12, begin(program, DEEDS).instructions(count - 1).run().fault().kind());
    }

    @Test
    @DisplayName("a program moves to new classes at any instruction")
    void atInstructions() throws IOException {
        Result expected = begin(anew(), DEEDS).run();
        for (int size : new int[] {7, 97}) {
            Execution execution = begin(anew(), DEEDS).start();
            int moves = 0;
            while (execution.runFor(moves < 60 ? size : 1_000_000)) {
                byte[] snapshot = execution.snapshot().bytes();
                execution.close();
                execution = goOn(anew(), snapshot);
                moves++;
            }
            compare(expected, execution.result());
        }
    }

    @Test
    @DisplayName("a snapshot is used more than once, and what goes on with it does not change it")
    void twice() throws IOException {
        Program program = anew();
        Execution execution = begin(program, "count", "echo", "copy", "a", "b", "work").start();
        assertTrue(execution.runFor(2_000));
        Snapshot snapshot = execution.snapshot();
        byte[] bytes = snapshot.bytes();
        assertFalse(execution.runFor(Long.MAX_VALUE));
        for (int i = 0; i < 2; i++) {
            compare(execution.result(), program.call(snapshot).run());
        }
        assertArrayEquals(bytes, snapshot.bytes());
        assertThrows(IllegalStateException.class, execution::snapshot);
        assertFalse(execution.runFor(1));
        Execution given = program.call(snapshot).start();
        assertThrows(IllegalStateException.class, given::result);
        given.close();
        assertThrows(IllegalStateException.class, () -> given.runFor(1));
        assertThrows(IllegalStateException.class, given::snapshot);
    }

    @Test
    @DisplayName("what a call goes on with is chosen anew, and what the snapshot has is not")
    void choices() throws IOException {
        Program program = anew();
        Execution execution = program.call("echo").input(Texts.bytes("one\ntwo\n")).start();
        Call call = program.call(execution.snapshot());
        assertEquals("one\ntwo\nthree\n", Texts.text(call.input(Texts.bytes("three\n")).run().output()));
        assertThrows(IllegalStateException.class, () -> call.file("a", new byte[1]));
        assertThrows(IllegalStateException.class, () -> call.name("a"));
        assertThrows(IllegalStateException.class, () -> call.heap(1));
        assertThrows(IllegalStateException.class, () -> call.blocks(1));
        assertThrows(IllegalStateException.class, () -> call.environment("A", "b"));
        assertThrows(IllegalStateException.class, call::library);
        Program other = Guests.program("functions", "--meter", "2147483647");
        assertThrows(IllegalArgumentException.class, () -> other.call(execution.snapshot()).run());
        assertThrows(IllegalArgumentException.class, () -> other.call(execution.snapshot()).start());
        assertThrows(IllegalArgumentException.class, () -> Guests.program("deeds").call().start());
        assertThrows(IllegalArgumentException.class, () -> execution.runFor(0));
        execution.close();
    }

    @Test
    @DisplayName("a program with a file of its folder open has no snapshot")
    void folder() throws IOException {
        Path folder = Files.createTempDirectory("nested-snapshot");
        Files.write(folder.resolve("a"), new byte[3]);
        Execution execution = anew().call("open", "a", "count").folder(folder, FolderAccess.READ).start();
        assertNotNull(execution.snapshot());
        assertTrue(execution.runToCall());
        assertThrows(IllegalStateException.class, execution::snapshot);
        assertFalse(execution.runFor(Long.MAX_VALUE));
        assertEquals("3\n1\n", Texts.text(execution.result().output()));
    }

    @Test
    @DisplayName("bounds of slices: instructions of all, and a deadline and an interrupt of each")
    void bounds() throws IOException {
        Program program = anew();
        Execution counted = program.call("spin").instructions(5_000_000).start();
        int slices = 0;
        while (counted.runFor(1_000_000)) {
            slices++;
        }
        assertEquals(4, slices);
        assertEquals(12, counted.result().fault().kind());
        assertEquals(5_000_000, counted.instructions(), 1);
        Execution late = program.call("spin").deadline(Duration.ofMillis(50)).start();
        assertTrue(late.runFor(10));
        assertFalse(late.runFor(Long.MAX_VALUE));
        assertEquals(Ending.TIMED_OUT, late.result().ending());
        Execution interrupted = program.call("spin").start();
        Thread.currentThread().interrupt();
        assertFalse(interrupted.runFor(Long.MAX_VALUE));
        assertEquals(Ending.INTERRUPTED, interrupted.result().ending());
        Execution broken = program.call("count").output(new BrokenOutput()).start();
        while (broken.runFor(100)) {
            assertTrue(broken.instructions() < 1_000_000, "it does not end");
        }
        assertEquals(Ending.OUTPUT_FAILED, broken.result().ending());
    }

    /** What comes of bytes that may be a snapshot: it is refused, or goes on. */
    private static boolean goesOn(Program program, byte[] bytes) {
        try {
            Result result = program.call(Snapshot.of(bytes)).instructions(20_000).mostOutput(100_000).run();
            assertNotNull(result.ending());
            return true;
        } catch (IllegalArgumentException refused) {
            assertTrue(refused.getMessage().contains("snapshot"), refused.getMessage());
            return false;
        }
    }

    @Test
    @DisplayName("bytes that were changed or cut are refused, or go on as any program")
    void hostile() throws IOException {
        Program program = anew();
        Random random = new Random(72);
        int wentOn = 0;
        int most = Math.min(CALLS, 20_000);
        Execution whole = begin(program, DEEDS).start();
        assertFalse(whole.runFor(Long.MAX_VALUE));
        for (int stop = 0; stop < 20; stop++) {
            Execution execution = begin(program, DEEDS).start();
            assertTrue(execution.runFor(1 + whole.instructions() * stop / 21));
            byte[] bytes = execution.snapshot().bytes();
            execution.close();
            for (int i = 0; i < most / 20; i++) {
                wentOn += goesOn(program, mutated(random, bytes)) ? 1 : 0;
            }
        }
        assertTrue(wentOn > most / 10, "only " + wentOn + " of " + most + " were no refusals");
    }

    /** Some bytes are others, mostly near the ends, where registers and files are; or they are cut, or have others behind. */
    private static byte[] mutated(Random random, byte[] bytes) {
        int length = random.nextInt(8) > 0 ? bytes.length : random.nextInt(bytes.length + 10);
        byte[] mutated = Arrays.copyOf(bytes, length);
        int changes = 1 + random.nextInt(3);
        for (int i = 0; i < changes && length > 0; i++) {
            int near = random.nextInt(4) > 0 ? random.nextInt(Math.min(length, 400)) : random.nextInt(length);
            int place = random.nextBoolean() ? near : length - 1 - near;
            mutated[place] = random.nextBoolean() ? (byte) random.nextInt() : (byte) (mutated[place] ^ 1 << random.nextInt(8));
        }
        return mutated;
    }
}
