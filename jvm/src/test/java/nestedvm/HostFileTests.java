package nestedvm;

import static org.junit.jupiter.api.Assertions.assertArrayEquals;
import static org.junit.jupiter.api.Assertions.assertEquals;
import static org.junit.jupiter.api.Assertions.assertFalse;
import static org.junit.jupiter.api.Assertions.assertNotEquals;
import static org.junit.jupiter.api.Assertions.assertThrows;
import static org.junit.jupiter.api.Assertions.assertTrue;

import java.io.IOException;
import java.nio.ByteBuffer;
import java.nio.file.Files;
import java.nio.file.Path;
import java.nio.file.attribute.FileTime;
import java.time.Duration;
import java.util.Arrays;
import java.util.Random;
import org.junit.jupiter.api.DisplayName;
import org.junit.jupiter.api.Test;

/** Files that the host answers: devices, the clock, the environment and folders. */
final class HostFileTests {
    private static final int CLOSE = 3;
    private static final int STATUS = 8;
    private static final int UNLINK = 9;
    private static final int RENAME = 14;
    private static final int NEW = 0xA00;

    private static final int NO_ENTRY = -2;
    private static final int DENIED = -13;
    private static final int BUSY = -16;
    private static final int PRESENT = -17;
    private static final int NO_FOLDER = -20;
    private static final int INVALID = -22;
    private static final int NOT_EMPTY = -90;

    private static final int FILE = 0100000;
    private static final int FOLDER = 0040000;

    private final Path top = Files.createTempDirectory("nested-host");
    private final Path folder = Files.createDirectory(top.resolve("folder"));

    HostFileTests() throws IOException {
    }

    private static Call call() throws IOException {
        return Guests.program("syscalls").call();
    }

    private Call inFolder(FolderAccess access) throws IOException {
        return call().folder(folder, access);
    }

    /** Makes a call with a path for its first word. */
    private static int with(SystemCalls calls, int number, String path, int second) {
        calls.library().write(calls.room(), Texts.bytes(path + "\0"));
        return calls.call(number, calls.room(), second, 0);
    }

    /** Makes a folder, a file or nothing anew, and gives the refusal or 0. */
    private static int make(SystemCalls calls, String path) {
        int descriptor = with(calls, SystemCalls.OPEN, path, NEW);
        return descriptor < 0 ? descriptor : calls.call(CLOSE, descriptor, 0, 0);
    }

    private static int rename(SystemCalls calls, String from, String to) {
        int second = calls.room() + 1000;
        calls.library().write(second, Texts.bytes(to + "\0"));
        return with(calls, RENAME, from, second);
    }

    /** The bytes that one read of a file gives, at most so many. */
    private static byte[] read(SystemCalls calls, String path, int most) {
        int descriptor = calls.open(path);
        assertTrue(descriptor >= 0, path + " is refused by " + descriptor);
        int count = calls.call(SystemCalls.READ, descriptor, calls.room(), most);
        byte[] bytes = calls.library().read(calls.room(), count);
        calls.call(CLOSE, descriptor, 0, 0);
        return bytes;
    }

    private static String list(SystemCalls calls, String path) {
        return Texts.text(read(calls, "/dev/nested/list/" + path, 65_536)).replace('\0', ' ');
    }

    private static ByteBuffer status(SystemCalls calls, String path) {
        return ByteBuffer.wrap(read(calls, "/dev/nested/status/" + path, 100));
    }

    @Test
    @DisplayName("devices")
    void devices() throws IOException {
        byte[] expected = new byte[40];
        new Random(7).nextBytes(expected);
        try (SystemCalls calls = new SystemCalls(call().random(new Random(7)).library())) {
            assertArrayEquals(expected, read(calls, "/dev/urandom", 40));
            assertArrayEquals(new byte[50_000], read(calls, "/dev/zero", 50_000));
            assertEquals(60_000, read(calls, "/dev/random", 60_000).length);
            assertEquals(DENIED, with(calls, SystemCalls.OPEN, "/dev/urandom", 1));
            assertEquals(DENIED, with(calls, UNLINK, "/dev/zero", 0));
            assertEquals(DENIED, rename(calls, "/dev/zero", "x"));
            assertEquals(NO_ENTRY, calls.open("/dev/nested/nothing"));
        }
        try (SystemCalls calls = new SystemCalls(call().library())) {
            assertFalse(Arrays.equals(read(calls, "/dev/urandom", 20), read(calls, "/dev/urandom", 20)));
            int descriptor = calls.open("/dev/zero");
            assertEquals(0, calls.call(STATUS, descriptor, calls.room(), 0));
            assertEquals(1, calls.library().word(calls.room()));
        }
        try (SystemCalls calls = new SystemCalls(call().file("/dev/urandom", Texts.bytes("mine")).library())) {
            assertEquals("mine", Texts.text(read(calls, "/dev/urandom", 20)));
        }
    }

    @Test
    @DisplayName("a clock that runs, and one that stands still")
    void clocks() throws IOException {
        long before = System.currentTimeMillis() / 1000;
        try (SystemCalls calls = new SystemCalls(call().library())) {
            ByteBuffer first = ByteBuffer.wrap(read(calls, "/dev/nested/clock", 100));
            assertTrue(first.getLong(0) >= before && first.getLong(0) <= before + 60, "the time is another");
            long start = System.nanoTime();
            assertEquals(0, read(calls, "/dev/nested/sleep/30000000", 1).length);
            assertTrue(System.nanoTime() - start >= 30_000_000, "it did not wait");
            ByteBuffer second = ByteBuffer.wrap(read(calls, "/dev/nested/clock", 100));
            long elapsed = (second.getLong(12) - first.getLong(12)) * 1_000_000_000 + second.getInt(20) - first.getInt(20);
            assertTrue(elapsed >= 30_000_000, "the clock did not move");
            assertEquals(NO_ENTRY, calls.open("/dev/nested/sleep/1s"));
            assertEquals(NO_ENTRY, calls.open("/dev/nested/sleep/1000000000000000000"));
        }
        try (SystemCalls calls = new SystemCalls(call().moment(1_000_000_000_000L).library())) {
            assertEquals(0, read(calls, "/dev/nested/sleep/999999999999999999", 1).length);
            ByteBuffer clock = ByteBuffer.wrap(read(calls, "/dev/nested/clock", 100));
            assertEquals(1_000_000_000_000L, clock.getLong(0));
            assertEquals(0, clock.getLong(12) + clock.getInt(20));
        }
    }

    @Test
    @DisplayName("a thread that is interrupted while its program waits")
    void interruptedWait() throws Exception {
        try (SystemCalls calls = new SystemCalls(call().library())) {
            Thread here = Thread.currentThread();
            Thread other = new Thread(here::interrupt);
            other.start();
            CallFailed failed = assertThrows(CallFailed.class, () -> calls.open("/dev/nested/sleep/99999999999999"));
            assertEquals(Ending.INTERRUPTED, failed.result().ending());
            other.join();
        }
    }

    @Test
    @DisplayName("a program whose time is over while it waits")
    void waitsTooLong() throws IOException {
        Program metered = Guests.program("deeds", "--meter", "2147483647");
        Result result = metered.call("copy", "/dev/nested/sleep/999999999999999999", "x").deadline(Duration.ofMillis(100)).run();
        assertEquals(Ending.TIMED_OUT, result.ending());
    }

    @Test
    @DisplayName("folders in memory")
    void inMemory() throws IOException {
        byte[] content = new byte[5];
        try (SystemCalls calls = new SystemCalls(call().moment(77).file("a", content).file("sub/b", content).file("sub/deep/c", content).library())) {
            assertEquals("/", Texts.text(read(calls, "/dev/nested/folder", 10)));
            assertEquals("fa dsub ", list(calls, ""));
            assertEquals("fb ddeep ", list(calls, "sub"));
            assertEquals(FOLDER | 0777, status(calls, "sub").getInt(0));
            assertEquals(FILE | 0666, status(calls, "a").getInt(0));
            assertEquals(5, status(calls, "sub/b").getLong(4));
            assertEquals(77, status(calls, "a").getLong(12));
            assertEquals(NO_ENTRY, calls.open("/dev/nested/status/none"));
            assertEquals(NO_FOLDER, calls.open("/dev/nested/list/a"));
            assertEquals(0, make(calls, "made/"));
            assertEquals(PRESENT, make(calls, "made/"));
            assertEquals(PRESENT, make(calls, "sub/"));
            assertEquals(NO_ENTRY, make(calls, "none/made/"));
            assertEquals(NO_FOLDER, make(calls, "a/made/"));
            assertEquals(0, make(calls, "made/x"));
            assertEquals(NOT_EMPTY, with(calls, UNLINK, "made/", 0));
            assertEquals(0, rename(calls, "made/", "sub/moved/"));
            assertEquals("fb ddeep dmoved ", list(calls, "sub"));
            assertEquals("fx ", list(calls, "sub/moved"));
            assertEquals(INVALID, rename(calls, "sub/", "sub/moved/y/"));
            assertEquals(NO_FOLDER, rename(calls, "a", "b/"));
            assertEquals(0, with(calls, UNLINK, "sub/moved/x", 0));
            assertEquals(0, with(calls, UNLINK, "sub/moved/", 0));
            assertEquals(NO_ENTRY, with(calls, UNLINK, "sub/moved/", 0));
            assertEquals(BUSY, with(calls, UNLINK, "/", 0));
            int made = 0;
            while (make(calls, "m" + made + "/") == 0) {
                made++;
            }
            assertEquals(Folders.MOST_FOLDERS, made);
        }
    }

    @Test
    @DisplayName("folders of a folder")
    void inFolder() throws IOException {
        Path file = Files.write(folder.resolve("a"), new byte[9]);
        Files.setLastModifiedTime(file, FileTime.fromMillis(1_234_567_890_123L));
        Files.createDirectories(folder.resolve("sub/deep"));
        try (SystemCalls calls = new SystemCalls(inFolder(FolderAccess.READ_AND_WRITE).library())) {
            assertEquals("fa dsub ", list(calls, ""));
            assertEquals("ddeep ", list(calls, "sub"));
            assertEquals(9, status(calls, "a").getLong(4));
            assertEquals(1_234_567_890, status(calls, "a").getLong(12));
            assertEquals(123_000_000, status(calls, "a").getInt(20));
            int descriptor = calls.open("a");
            assertEquals(1_234_567_890, ByteBuffer.wrap(read(calls, "/dev/nested/descriptor/" + descriptor, 100)).getLong(12));
            assertEquals(-9, calls.open("/dev/nested/descriptor/40"));
            assertEquals(0, make(calls, "made/"));
            assertTrue(Files.isDirectory(folder.resolve("made")));
            assertEquals(0, rename(calls, "sub/", "made/sub/"));
            assertTrue(Files.isDirectory(folder.resolve("made/sub/deep")));
            assertEquals(NOT_EMPTY, with(calls, UNLINK, "made/", 0));
            assertEquals(0, with(calls, UNLINK, "made/sub/deep/", 0));
            assertEquals(0, with(calls, UNLINK, "made/sub/", 0));
            assertEquals(0, with(calls, UNLINK, "made/", 0));
            assertFalse(Files.exists(folder.resolve("made")));
            assertEquals(0, make(calls, "tmp/x"));
            assertFalse(Files.exists(folder.resolve("tmp")));
            assertEquals("fx ", list(calls, "tmp"));
        }
    }

    @Test
    @DisplayName("folders of a folder that is read")
    void inReadFolder() throws IOException {
        Files.createDirectories(folder.resolve("sub"));
        try (SystemCalls calls = new SystemCalls(inFolder(FolderAccess.READ).library())) {
            assertEquals(0, status(calls, "sub").getInt(0) & 0222);
            assertEquals(DENIED, with(calls, UNLINK, "sub/", 0));
            assertEquals(DENIED, rename(calls, "sub/", "x/"));
            assertEquals(0, make(calls, "sub/made/"));
            assertEquals("dmade ", list(calls, "sub"));
            assertFalse(Files.exists(folder.resolve("sub/made")));
        }
    }

    @Test
    @DisplayName("folders outside of a folder")
    void outside() throws IOException {
        Files.createDirectories(top.resolve("outside/sub"));
        Files.createSymbolicLink(folder.resolve("link"), top.resolve("outside"));
        Files.createDirectories(folder.resolve("sub"));
        for (FolderAccess access : FolderAccess.values()) {
            try (SystemCalls calls = new SystemCalls(inFolder(access).library())) {
                assertEquals("dsub ", list(calls, ""));
                for (String name : new String[] {"..", "../outside", "link", "link/sub", top.toString(), "sub/../..", "/"}) {
                    assertEquals(NO_ENTRY, calls.open("/dev/nested/list/" + name), name);
                    assertEquals(NO_ENTRY, calls.open("/dev/nested/status/" + name), name);
                    assertNotEquals(0, make(calls, name + "/made/"), name);
                    assertNotEquals(0, with(calls, UNLINK, name + "/", 0), name);
                    assertNotEquals(0, rename(calls, "sub/", name + "/sub/"), name);
                }
            }
        }
        assertTrue(Files.isDirectory(top.resolve("outside/sub")) && Files.isDirectory(folder.resolve("sub")));
    }
}
