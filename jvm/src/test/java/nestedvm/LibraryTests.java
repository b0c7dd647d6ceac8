package nestedvm;

import static org.junit.jupiter.api.Assertions.assertEquals;
import static org.junit.jupiter.api.Assertions.assertNull;
import static org.junit.jupiter.api.Assertions.assertThrows;
import static org.junit.jupiter.api.Assertions.assertTrue;
import static org.junit.jupiter.params.provider.Arguments.arguments;

import java.io.ByteArrayOutputStream;
import java.io.IOException;
import java.io.InputStream;
import java.io.OutputStream;
import java.util.ArrayList;
import java.util.Arrays;
import java.util.Collections;
import java.util.List;
import java.util.Random;
import java.util.stream.Stream;
import org.junit.jupiter.api.DisplayName;
import org.junit.jupiter.api.Test;
import org.junit.jupiter.params.ParameterizedTest;
import org.junit.jupiter.params.provider.Arguments;
import org.junit.jupiter.params.provider.MethodSource;
import org.junit.jupiter.params.provider.ValueSource;

/** Functions of resident programs, of both orders of bytes. */
final class LibraryTests {
    private static Stream<Arguments> programs() throws IOException {
        return Stream.of(
            arguments("big-endian", Guests.program("functions")),
            arguments("little-endian", Guests.program("functions-little")));
    }

    @ParameterizedTest(name = "{0}: arguments and values")
    @MethodSource("programs")
    void values(String name, Program program) {
        try (Library library = program.call().library()) {
            assertEquals(42, library.call(library.function("add"), 20, 22));
            assertEquals(654_321, library.call(library.function("six"), 1, 2, 3, 4, 5, 6));
            assertEquals(0x0123456789ABCDEFL, library.callLong(library.function("wide"), 0x01234567, 0x89ABCDEF));
            assertEquals(13, library.functions().size());
            assertThrows(IllegalArgumentException.class, () -> library.function("none"));
        }
    }

    @ParameterizedTest(name = "{0}: recursion")
    @MethodSource("programs")
    void recursion(String name, Program program) {
        try (Library library = program.call().library()) {
            assertEquals(1000, library.call(library.function("deep"), 1000));
            CallFailed failed = assertThrows(CallFailed.class, () -> library.call(library.function("deep"), 1_000_000));
            assertEquals(Ending.FAULTED, failed.result().ending());
            assertEquals(4, failed.result().fault().kind());
            assertEquals(1000, library.call(library.function("deep"), 1000));
        }
    }

    @ParameterizedTest(name = "{0}: memory and malloc")
    @MethodSource("programs")
    void memory(String name, Program program) {
        byte[] bytes = new byte[100_000];
        new Random(1).nextBytes(bytes);
        int sum = 0;
        for (byte value : bytes) {
            sum = sum * 31 + (value & 0xFF);
        }
        try (Library library = program.call().library()) {
            int first = library.allocate(bytes.length);
            library.write(first, bytes);
            assertTrue(Arrays.equals(bytes, library.read(first, bytes.length)), "other bytes are read");
            assertEquals(sum, library.call(library.function("sum"), first, bytes.length));
            library.release(first);
            assertEquals(first, library.allocate(bytes.length));
            library.setWord(first + 1, 0x11223344);
            assertEquals(0x11223344, library.word(first + 1));
            library.setWord(first, 77);
            assertEquals(77, library.call(library.function("load"), first));
            library.write(first, Texts.bytes("\u00e4b\0c"));
            assertEquals("\u00e4b", library.text(first));
            assertThrows(IllegalStateException.class, () -> library.allocate(100_000_000));
            assertThrows(IllegalArgumentException.class, () -> library.read(0, 1));
            assertThrows(IllegalArgumentException.class, () -> library.read(first, -1));
            assertThrows(IllegalArgumentException.class, () -> library.write(library.function("add"), new byte[1]));
            assertThrows(IllegalArgumentException.class, () -> library.text(-1));
        }
    }

    @ParameterizedTest(name = "{0}: two libraries of one program")
    @MethodSource("programs")
    void two(String name, Program program) {
        Library first = program.call().library();
        Library second = program.call().library();
        int next = first.function("next");
        assertEquals(1, first.call(next));
        assertEquals(2, first.call(next));
        assertEquals(1, second.call(next));
        first.close();
        first.close();
        assertThrows(IllegalStateException.class, () -> first.call(next));
        assertThrows(IllegalStateException.class, () -> first.word(next));
        try (Library third = program.call().library()) {
            assertEquals(2, second.call(next));
            assertEquals(1, third.call(next));
        }
        second.close();
    }

    @ParameterizedTest(name = "{0}: output")
    @MethodSource("programs")
    void output(String name, Program program) {
        try (Library library = program.call().library()) {
            int text = library.allocate(10);
            library.write(text, Texts.bytes("hello\n\0"));
            assertEquals(6, library.call(library.function("say"), text));
            assertEquals("hello\n", Texts.text(library.takeOutput()));
            assertEquals("", Texts.text(library.takeOutput()));
        }
    }

    @ParameterizedTest(name = "{0}: a fault, and further calls")
    @MethodSource("programs")
    void fault(String name, Program program) {
        try (Library library = program.call().library()) {
            assertEquals(1, library.call(library.function("next")));
            CallFailed failed = assertThrows(CallFailed.class, () -> library.call(library.function("load"), 2));
            assertEquals(5, failed.result().fault().kind());
            CallFailed stray = assertThrows(CallFailed.class, () -> library.call(0x10000000));
            assertEquals(1, stray.result().fault().kind());
            assertEquals(2, library.call(library.function("next")));
        }
    }

    @ParameterizedTest(name = "{0}: an interrupt, and further calls")
    @MethodSource("programs")
    void interrupt(String name, Program program) {
        try (Library library = program.call().library()) {
            Thread.currentThread().interrupt();
            CallFailed failed = assertThrows(CallFailed.class, () -> library.call(library.function("wait")));
            assertEquals(Ending.INTERRUPTED, failed.result().ending());
            assertTrue(!Thread.interrupted(), "the thread is still interrupted");
            assertEquals(1, library.call(library.function("next")));
        }
    }

    @ParameterizedTest(name = "{0}: a program that leaves")
    @MethodSource("programs")
    void leaves(String name, Program program) {
        try (Library library = program.call().library()) {
            CallFailed failed = assertThrows(CallFailed.class, () -> library.call(library.function("leave"), 7));
            assertEquals(Ending.EXITED, failed.result().ending());
            assertEquals(7, failed.result().status());
            assertThrows(IllegalStateException.class, () -> library.call(library.function("next")));
        }
    }

    @ParameterizedTest(name = "{0}: several threads")
    @MethodSource("programs")
    void threads(String name, Program program) throws InterruptedException {
        try (Library library = program.call().library()) {
            int next = library.function("next");
            Thread[] threads = new Thread[4];
            for (int i = 0; i < threads.length; i++) {
                threads[i] = new Thread(() -> {
                    for (int k = 0; k < 1000; k++) {
                        library.call(next);
                    }
                });
                threads[i].start();
            }
            for (Thread thread : threads) {
                thread.join();
            }
            assertEquals(4001, library.call(next));
        }
    }

    /** Input that does something when it is read, and has one byte. */
    private static InputStream input(Runnable deed) {
        return new InputStream() {
            @Override
            public int read() {
                return 0;
            }

            @Override
            public int read(byte[] into, int at, int count) {
                deed.run();
                return 1;
            }
        };
    }

    @Test
    @DisplayName("a call from a stream of the library, while a function runs")
    void callFromStream() throws IOException {
        SystemCalls[] calls = new SystemCalls[1];
        List<IllegalStateException> thrown = new ArrayList<>();
        Call call = Guests.program("syscalls").call()
            .input(input(() -> thrown.add(assertThrows(IllegalStateException.class, () -> calls[0].call(SystemCalls.WRITE, 1, 0, 0)))));
        calls[0] = new SystemCalls(call.library());
        try (SystemCalls open = calls[0]) {
            assertEquals(1, open.call(SystemCalls.READ, 0, open.room(), 1));
            assertEquals(1, thrown.size());
            assertEquals(1, open.call(SystemCalls.READ, 0, open.room(), 1));
        }
    }

    @Test
    @DisplayName("a library that is closed by a stream, while a function runs")
    void closeFromStream() throws IOException {
        Program program = Guests.program("syscalls");
        SystemCalls[] calls = new SystemCalls[1];
        SystemCalls[] other = new SystemCalls[1];
        calls[0] = new SystemCalls(program.call().input(input(() -> {
            calls[0].close();
            other[0] = new SystemCalls(program.call().library());
            other[0].library().setWord(other[0].room(), 0x11223344);
        })).library());
        calls[0].library().setWord(calls[0].room() + 4, 0x55667788);
        assertEquals(1, calls[0].call(SystemCalls.READ, 0, calls[0].room(), 1));
        assertThrows(IllegalStateException.class, () -> calls[0].call(SystemCalls.READ, 0, calls[0].room(), 1));
        assertThrows(IllegalStateException.class, () -> calls[0].library().word(calls[0].room()));
        assertEquals(0x11223344, other[0].library().word(other[0].room()));
        assertEquals(0, other[0].library().word(other[0].room() + 4));
        other[0].close();
    }

    @Test
    @DisplayName("an interrupt before a function returns does not take its value away")
    void interruptBeforeTheEnd() throws IOException {
        try (SystemCalls calls = new SystemCalls(Guests.program("syscalls").call().input(new InterruptingInput("")).library())) {
            assertEquals(0, calls.call(SystemCalls.READ, 0, calls.room(), 1));
            assertTrue(Thread.interrupted(), "the thread is no longer interrupted");
        }
    }

    @Test
    @DisplayName("an output that fails once, and further calls")
    void outputFailsOnce() throws IOException {
        ByteArrayOutputStream written = new ByteArrayOutputStream();
        boolean[] fails = {true};
        OutputStream output = new OutputStream() {
            @Override
            public void write(int value) throws IOException {
                if (fails[0]) {
                    throw new IOException("full");
                }
                written.write(value);
            }
        };
        try (SystemCalls calls = new SystemCalls(Guests.program("syscalls").call().output(output).library())) {
            calls.library().write(calls.room(), Texts.bytes("first second"));
            CallFailed failed = assertThrows(CallFailed.class, () -> calls.call(SystemCalls.WRITE, 1, calls.room(), 5));
            assertEquals(Ending.OUTPUT_FAILED, failed.result().ending());
            assertEquals("full", failed.getCause().getMessage());
            fails[0] = false;
            assertEquals(6, calls.call(SystemCalls.WRITE, 1, calls.room() + 6, 6));
            assertEquals("second", Texts.text(written.toByteArray()));
        }
    }

    @Test
    @DisplayName("a function that fails beside large files")
    void failsBesideFiles() throws IOException {
        Call call = Guests.program("syscalls").call().file("large", new byte[12_000_000]).mostOutput(20);
        try (SystemCalls calls = new SystemCalls(call.library())) {
            calls.library().write(calls.room(), Texts.bytes("to output to errors "));
            assertEquals(10, calls.call(SystemCalls.WRITE, 1, calls.room(), 10));
            assertEquals(10, calls.call(SystemCalls.WRITE, 2, calls.room() + 10, 10));
            CallFailed failed = assertThrows(CallFailed.class, () -> calls.library().call(4));
            assertTrue(failed.getMessage().endsWith("to errors"), failed.getMessage());
            assertEquals(0, failed.result().output().length);
            assertTrue(failed.result().files().isEmpty(), "the result has files");
            assertEquals("to output ", Texts.text(calls.library().takeOutput()));
            assertEquals("to errors ", Texts.text(calls.library().takeErrorOutput()));
            assertEquals("", Texts.text(calls.library().takeErrorOutput()));
            assertEquals(Collections.singleton("large"), calls.library().files());
            assertEquals(12_000_000, calls.library().file("large").length);
            assertNull(calls.library().file("none"));
            assertEquals(20, calls.call(SystemCalls.WRITE, 1, calls.room(), 20));
            assertEquals(Ending.OUTPUT_FAILED, assertThrows(CallFailed.class, () -> calls.call(SystemCalls.WRITE, 1, calls.room(), 1)).result().ending());
            assertEquals(20, calls.library().takeOutput().length);
            assertEquals(1, calls.call(SystemCalls.WRITE, 1, calls.room(), 1));
        }
    }

    @ParameterizedTest(name = "a table of functions that no program should tell: {0}")
    @ValueSource(strings = {"many", "stray", "endless", "none"})
    void hostileTable(String kind) throws IOException {
        Program program = Guests.program("syscalls");
        assertThrows(IllegalArgumentException.class, () -> program.call(kind).library());
        program.call().library().close();
    }

    @Test
    @DisplayName("a program that is not resident")
    void notResident() throws Exception {
        Program deeds = Guests.program("deeds");
        CallFailed failed = assertThrows(CallFailed.class, () -> deeds.call("count").library());
        assertEquals(Ending.EXITED, failed.result().ending());
        assertEquals("1\n", Texts.text(failed.result().output()));
        assertEquals(1, Guests.program("functions").call().run().status());
    }

    @Test
    @DisplayName("a function that calls the address to which functions return faults there")
    void returnAddress() throws IOException {
        try (Library library = Guests.program("types").call().library(); Memory sample = library.allocateMemory(64)) {
            sample.write(0, new byte[64]);
            CallFailed failed = assertThrows(CallFailed.class, () -> library.call(library.function("each"), sample.address(), Registers.RETURN));
            assertEquals(1, failed.result().fault().kind());
            assertEquals(Registers.RETURN, failed.result().fault().address());
            assertEquals(3, library.call(library.function("add"), 1, 2));
        }
    }
}
