package nestedvm;

import static org.junit.jupiter.api.Assertions.assertEquals;
import static org.junit.jupiter.api.Assertions.assertNotSame;
import static org.junit.jupiter.api.Assertions.assertNull;
import static org.junit.jupiter.api.Assertions.assertSame;
import static org.junit.jupiter.api.Assertions.assertThrows;
import static org.junit.jupiter.api.Assertions.assertTrue;

import java.io.IOException;
import java.net.URI;
import java.nio.file.FileSystem;
import java.nio.file.FileSystems;
import java.nio.file.Files;
import java.nio.file.Path;
import java.util.Arrays;
import java.util.Collections;
import java.util.TreeSet;
import java.util.concurrent.CountDownLatch;
import java.util.concurrent.atomic.AtomicInteger;
import org.junit.jupiter.api.DisplayName;
import org.junit.jupiter.api.Test;

/** Files of calls, in memory and in folders. */
final class FileTests {
    private static final int NO_ENTRY = -2;
    private static final int DENIED = -13;

    private final Program deeds = Guests.program("deeds");
    private final Path top = Files.createTempDirectory("nested-files");
    private final Path folder = Files.createDirectory(top.resolve("folder"));

    FileTests() throws IOException {
    }

    private static void answers(String expected, Result result) {
        assertEquals(Ending.EXITED, result.ending());
        assertEquals(expected, Texts.text(result.output()));
    }

    private Call inFolder(FolderAccess access, String... arguments) {
        return deeds.call(arguments).folder(folder, access);
    }

    private void store(String name, String content) throws IOException {
        Files.write(folder.resolve(name), Texts.bytes(content));
    }

    private String stored(String name) throws IOException {
        return Texts.text(Files.readAllBytes(folder.resolve(name)));
    }

    private boolean isThere(String name) {
        return Files.exists(folder.resolve(name));
    }

    @Test
    @DisplayName("files in memory")
    void inMemory() {
        byte[] content = Texts.bytes("content");
        Result result = deeds.call("copy", "\u00e4", "b", "remove", "c", "rename", "d", "e", "copy", "b", "e", "open", "c")
            .file("\u00e4", content).file("c", new byte[1]).file("d", new byte[2]).run();
        answers("0\n0\n0\n0\n" + NO_ENTRY + "\n", result);
        assertEquals(new TreeSet<>(Arrays.asList("b", "e", "\u00e4")), new TreeSet<>(result.files().keySet()));
        assertEquals("content", Texts.text(result.file("\u00e4")));
        assertEquals("content", Texts.text(result.file("e")));
        assertThrows(UnsupportedOperationException.class, () -> result.files().clear());
        result.file("\u00e4")[0] = 0;
        assertEquals("content", Texts.text(content));
        answers("-28\n-28\n", deeds.call("copy", "a", "b", "copy", "a", "c").file("a", content).blocks(1).run());
    }

    @Test
    @DisplayName("names that are no UTF-8")
    void rawNames() throws IOException {
        Result result = deeds.call("copy", "a", "\udce9", "copy", "a", "\u00e9", "copy", "a", "x\udcc3", "rename", "\udcff\udcfe", "y").file("a", new byte[3])
            .file("\udcff\udcfe", new byte[2]).run();
        answers("0\n0\n0\n0\n", result);
        assertEquals(new TreeSet<>(Arrays.asList("a", "\udce9", "\u00e9", "x\udcc3", "y")), result.files().keySet());
        assertEquals(3, result.file("\udce9").length);
        assertEquals(2, result.file("y").length);
        assertEquals("n\udce9\n", Names.textOf(deeds.call("n\udce9").run().output()));
        answers(NO_ENTRY + "\n", inFolder(FolderAccess.READ, "open", "\udce9").run());
    }

    @Test
    @DisplayName("a file that is given is copied where it is changed, and only there")
    void copies() {
        byte[] large = new byte[12_000_000];
        byte[] small = Texts.bytes("small");
        Result result = deeds.call("copy", "small", "other", "copy", "other", "small", "open", "large").file("small", small).file("large", large).run();
        answers("0\n0\n3\n", result);
        assertEquals("small", Texts.text(small));
        assertNotSame(small, result.file("small"));
        assertSame(result.file("other"), result.file("other"));
        result.file("small")[0] = 0;
        assertEquals("small", Texts.text(small));
    }

    @Test
    @DisplayName("a file of a folder is read again after an interrupt")
    void readAfterInterrupt() throws Exception {
        Files.write(folder.resolve("large"), new byte[65_536]);
        AtomicInteger interrupts = new AtomicInteger();
        CountDownLatch opened = new CountDownLatch(1);
        Throwable[] failure = new Throwable[1];
        Thread reading = new Thread(() -> {
            try (SystemCalls calls = new SystemCalls(Guests.program("syscalls").call().folder(folder, FolderAccess.READ_AND_WRITE).library())) {
                int file = calls.open("large");
                opened.countDown();
                while (interrupts.get() < 30) {
                    try {
                        assertEquals(0, calls.call(SystemCalls.SEEK, file, 0, 0));
                        assertEquals(65_536, calls.call(SystemCalls.READ, file, calls.room(), 65_536));
                    } catch (CallFailed interrupted) {
                        assertEquals(Ending.INTERRUPTED, interrupted.result().ending());
                        interrupts.incrementAndGet();
                    }
                }
            } catch (IOException | RuntimeException | Error thrown) {
                failure[0] = thrown;
            }
        });
        reading.start();
        opened.await();
        while (reading.isAlive()) {
            reading.interrupt();
            reading.join(1);
        }
        assertNull(failure[0]);
    }

    @Test
    @DisplayName("a file of a folder that cannot be closed")
    void closeFails() throws IOException {
        Path zip = top.resolve("files.zip");
        FileSystem files = FileSystems.newFileSystem(URI.create("jar:" + zip.toUri()), Collections.singletonMap("create", "true"));
        Path inZip = Files.createDirectory(files.getPath("/folder"));
        Files.write(inZip.resolve("a"), Texts.bytes("inside"));
        SystemCalls calls = new SystemCalls(Guests.program("syscalls").call().folder(inZip, FolderAccess.READ_AND_WRITE).library());
        int file = calls.open("a");
        assertEquals(6, calls.call(SystemCalls.READ, file, calls.room(), 10));
        files.close();
        CallFailed failed = assertThrows(CallFailed.class, calls::close);
        assertEquals(Ending.FOLDER_FAILED, failed.result().ending());
        calls.close();
        assertThrows(IllegalArgumentException.class, () -> deeds.call().folder(inZip, FolderAccess.READ).run());
    }

    @Test
    @DisplayName("a folder that is read")
    void read() throws IOException {
        store("a", "first");
        Result result = inFolder(FolderAccess.READ, "copy", "a", "b", "copy", "b", "a", "remove", "a", "rename", "a", "c", "rename", "b", "c").run();
        answers("0\n" + DENIED + "\n" + DENIED + "\n" + DENIED + "\n0\n", result);
        assertEquals("first", Texts.text(result.file("c")));
        assertTrue(!isThere("b") && !isThere("c"), "a file was made");
        assertEquals("first", stored("a"));
        answers("0\n", inFolder(FolderAccess.READ, "copy", "a", "b").file("a", Texts.bytes("other")).run());
    }

    @Test
    @DisplayName("a folder that is read and written")
    void readAndWritten() throws IOException {
        store("a", "first");
        Files.createDirectories(folder.resolve("sub"));
        Result result = inFolder(FolderAccess.READ_AND_WRITE, "copy", "a", "sub/b", "rename", "sub/b", "c", "copy", "a", "d", "remove", "a", "open", "a",
            "copy", "c", "none/x", "open", "sub").run();
        answers("0\n0\n0\n0\n" + NO_ENTRY + "\n" + NO_ENTRY + "\n" + NO_ENTRY + "\n", result);
        assertTrue(result.files().isEmpty(), "a file is in memory");
        assertTrue(!isThere("a") && !isThere("sub/b"), "a file is left");
        assertEquals("first", stored("c"));
        assertEquals("first", stored("d"));
        store("e", "something longer");
        answers("0\n", inFolder(FolderAccess.READ_AND_WRITE, "copy", "c", "e").run());
        assertEquals("first", stored("e"));
        answers("0\n" + NO_ENTRY + "\n" + DENIED + "\n", inFolder(FolderAccess.READ_AND_WRITE, "rename", "c", "e", "copy", "e", "e/f", "rename", "e", "sub")
            .run());
        assertTrue(!isThere("c"), "a file is left");
        answers("0\n0\n", inFolder(FolderAccess.READ_AND_WRITE, "rename", "e", "./e", "rename", "e", "sub/../e").run());
        assertEquals("first", stored("e"));
    }

    @Test
    @DisplayName("a file that is longer than a piece")
    void longFile() throws IOException {
        byte[] content = new byte[200_001];
        for (int i = 0; i < content.length; i++) {
            content[i] = (byte) (i * 31 >> 3);
        }
        Files.write(folder.resolve("long"), content);
        Result read = inFolder(FolderAccess.READ, "copy", "long", "copy").run();
        assertTrue(Arrays.equals(content, read.file("copy")), "the copy in memory differs");
        answers("0\n", inFolder(FolderAccess.READ_AND_WRITE, "copy", "long", "copy").run());
        assertTrue(Arrays.equals(content, Files.readAllBytes(folder.resolve("copy"))), "the copy in the folder differs");
    }

    @Test
    @DisplayName("names that lead out of a folder")
    void namesOutside() throws IOException {
        Path outside = Files.write(top.resolve("outside"), Texts.bytes("outside"));
        Files.createSymbolicLink(folder.resolve("link"), outside);
        Files.createSymbolicLink(folder.resolve("up"), top);
        store("a", "inside");
        String no = NO_ENTRY + "\n";
        for (FolderAccess access : FolderAccess.values()) {
            answers(no + no + no + no + "3\n", inFolder(access, "open", "../outside", "open", outside.toString(), "open", "link", "open", "up/outside",
                "open", "./sub/../a").run());
        }
        answers(no + no + no, inFolder(FolderAccess.READ_AND_WRITE, "copy", "a", "../made", "copy", "a", "up/made", "rename", "a", "../made").run());
        assertTrue(!Files.exists(top.resolve("made")), "a file was made outside");
        assertEquals("outside", Texts.text(Files.readAllBytes(outside)));
    }

    @Test
    @DisplayName("a folder that is not there")
    void noFolder() {
        assertThrows(IllegalArgumentException.class, () -> deeds.call().folder(top.resolve("none"), FolderAccess.READ).run());
    }

    /** The interrupt comes before the call's first word or while it copies: it ends the call, and closes the files. */
    @Test
    @DisplayName("a thread that is interrupted among files")
    void interrupted() throws Exception {
        Files.write(folder.resolve("large"), new byte[2_000_000]);
        String[] copies = new String[300];
        for (int i = 0; i < copies.length; i += 3) {
            copies[i] = "copy";
            copies[i + 1] = "large";
            copies[i + 2] = "copy";
        }
        Result[] results = new Result[1];
        Thread copying = new Thread(() -> results[0] = inFolder(FolderAccess.READ_AND_WRITE, copies).run());
        copying.start();
        Thread.sleep(100);
        copying.interrupt();
        copying.join();
        assertEquals(Ending.INTERRUPTED, results[0].ending());
        answers("0\n", inFolder(FolderAccess.READ_AND_WRITE, "copy", "large", "copy").run());
    }
}
