package nestedvm;

import static org.junit.jupiter.api.Assertions.assertEquals;
import static org.junit.jupiter.api.Assertions.assertNull;
import static org.junit.jupiter.api.Assertions.assertThrows;
import static org.junit.jupiter.api.Assertions.assertTrue;

import java.io.File;
import java.io.IOException;
import java.net.URL;
import java.net.URLClassLoader;
import java.nio.ByteOrder;
import java.nio.file.Files;
import java.nio.file.Path;
import java.nio.file.Paths;
import java.util.Arrays;
import java.util.Collections;
import java.util.Locale;
import org.junit.jupiter.api.DisplayName;
import org.junit.jupiter.api.Test;
import org.junit.jupiter.api.io.TempDir;

/** What is told of a fault, and of what was too large. */
final class FunctionTests {
    private static final String NAMES = "not a line\n00400000 low\n00400100 middle\nFFFFFFFF high\n004001 short\n";

    @TempDir
    private Path folder;

    @Test
    @DisplayName("the function of an address")
    void at() {
        Functions functions = new Functions(Texts.bytes(NAMES));
        assertNull(functions.at(0x3FFFFF));
        assertEquals("low", functions.at(0x400000));
        assertEquals("low+FF", functions.at(0x4000FF));
        assertEquals("middle+7FC00000", functions.at(0x80000100));
        assertEquals("high", functions.at(-1));
        assertNull(new Functions(null).at(0));
        assertNull(new Functions(new byte[16_777_217]).at(0));
    }

    @Test
    @DisplayName("a fault names its function where the program tells its functions")
    void fault() throws IOException {
        for (File file : Guests.classes("deeds").toFile().listFiles()) {
            Files.copy(file.toPath(), folder.resolve(file.getName()));
        }
        assertNull(Program.inFolder(folder, "Main").call("fault").run().fault().function());
        Files.write(folder.resolve("Main.symbols"), Texts.bytes("00000000 all\n"));
        Result result = Program.inFolder(folder, "Main").call("fault").run();
        String function = "all+" + Integer.toHexString(result.fault().address()).toUpperCase(Locale.ROOT);
        assertEquals(function, result.fault().function());
        assertTrue(result.toString().endsWith(" in " + function), result.toString());
        assertTrue(assertThrows(CallFailed.class, result::orThrow).getMessage().endsWith(result.line() + " in " + function), "another message");
        assertEquals("", Texts.text(result.errorOutput()));
        try (URLClassLoader loader = new URLClassLoader(new URL[] {folder.toUri().toURL()}, null)) {
            assertEquals(function, Program.of(loader, "Main").call("fault").run().fault().function());
        }
    }

    @Test
    @DisplayName("a function of a library that faults is named")
    void library() throws IOException {
        for (File file : Guests.classes("syscalls").toFile().listFiles()) {
            Files.copy(file.toPath(), folder.resolve(file.getName()));
        }
        Files.write(folder.resolve("Main.symbols"), Texts.bytes("00000000 all\n"));
        try (Library library = Program.inFolder(folder, "Main").call().library()) {
            CallFailed failed = assertThrows(CallFailed.class, () -> library.call(16));
            assertEquals("all+10", failed.result().fault().function());
        }
    }

    @Test
    @DisplayName("a text that is too long")
    void longText() {
        int[] page = new int[1024];
        Arrays.fill(page, 0x61616161);
        int[][] pages = new int[5000][];
        Arrays.fill(pages, page);
        ResidentMemory memory = new ResidentMemory("Main", new GuestMemory(pages, pages), ByteOrder.BIG_ENDIAN);
        String message = assertThrows(IllegalArgumentException.class, () -> memory.bytesToZero(4096)).getMessage();
        assertTrue(message.startsWith("Main has no zero within 16777216 bytes from 00001000 on"), message);
        pages[4999] = new int[1024];
        assertEquals(4096, memory.bytesToZero(4998 << 12).length);
    }

    private static String refusal(Call call) {
        return assertThrows(IllegalArgumentException.class, call::run).getMessage();
    }

    @Test
    @DisplayName("what is too large is told with its limit")
    void limits() throws IOException {
        Program deeds = Guests.program("deeds");
        assertEquals("Main: its arguments need 5013 bytes, and there are at most 4096",
            refusal(deeds.call(String.join("", Collections.nCopies(4995, "x")))));
        assertEquals("Main: its files need 2 blocks of 4096 bytes or more, and there are 1", refusal(deeds.call().file("a", new byte[4097]).blocks(1)));
        assertTrue(refusal(deeds.call().folder(Paths.get("none"), FolderAccess.READ)).startsWith("Main: its folder none cannot be opened: "), "another message");
    }
}
