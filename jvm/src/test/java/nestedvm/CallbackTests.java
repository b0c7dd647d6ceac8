package nestedvm;

import static org.junit.jupiter.api.Assertions.assertArrayEquals;
import static org.junit.jupiter.api.Assertions.assertEquals;
import static org.junit.jupiter.api.Assertions.assertNotEquals;
import static org.junit.jupiter.api.Assertions.assertSame;
import static org.junit.jupiter.api.Assertions.assertThrows;
import static org.junit.jupiter.api.Assertions.assertTrue;
import static org.junit.jupiter.params.provider.Arguments.arguments;

import java.io.IOException;
import java.io.OutputStream;
import java.util.ArrayList;
import java.util.Arrays;
import java.util.List;
import java.util.Random;
import java.util.concurrent.atomic.AtomicReference;
import java.util.function.IntUnaryOperator;
import java.util.stream.Stream;
import org.junit.jupiter.params.ParameterizedTest;
import org.junit.jupiter.params.provider.Arguments;
import org.junit.jupiter.params.provider.MethodSource;

/** Functions of Java that programs call, of both orders of bytes, and with a meter. */
final class CallbackTests {
    private static final int WORDS = 1000;

    private static Stream<Arguments> programs() throws IOException {
        return Stream.of(
            arguments("big-endian", Guests.program("callbacks")),
            arguments("little-endian", Guests.program("callbacks-little")),
            arguments("metered", Guests.program("callbacks", "--meter", "2000000000")));
    }

    /** Calls a function of C whose first argument is a function of Java. */
    private static int call(Library library, String function, Callback callback, int... others) {
        try (JavaFunction made = library.callback(callback)) {
            int[] words = new int[others.length + 1];
            words[0] = made.address();
            System.arraycopy(others, 0, words, 1, others.length);
            return library.call(library.function(function), words);
        }
    }

    private static CallFailed failure(Library library, String function, Callback callback, int... others) {
        return assertThrows(CallFailed.class, () -> call(library, function, callback, others));
    }

    @ParameterizedTest(name = "{0}: arguments and values of callbacks")
    @MethodSource("programs")
    void values(String name, Program program) {
        try (Library library = program.call().library()) {
            assertEquals(42, call(library, "apply", a -> a.word(0) * 2 + 1, 20));
            assertEquals(654_322, call(library, "apply_six", a -> {
                int sum = 0;
                for (int i = 5; i >= 0; i--) {
                    sum = 10 * sum + a.word(i);
                }
                return sum;
            }));
            assertEquals(0x3FC0_0000, call(library, "apply_float", a -> Float.floatToRawIntBits(Float.intBitsToFloat(a.word(0)) + 1), 0x3F00_0000));
            assertEquals(1, call(library, "apply_small", a -> {
                assertEquals(-1, a.word(0));
                assertEquals(-2, a.word(1));
                assertEquals(65_533, a.word(2));
                assertEquals(1, a.word(3));
                assertEquals("text", a.text(4));
                return 1;
            }));
        }
    }

    @ParameterizedTest(name = "{0}: callbacks that give pairs of words")
    @MethodSource("programs")
    void wideValues(String name, Program program) {
        try (Library library = program.call().library();
            JavaFunction wide = library.wideCallback(a -> {
                assertEquals(7, a.word(0));
                assertEquals(0.5, a.real(4));
                return 2 * a.wide(2);
            });
            JavaFunction real = library.wideCallback(a -> Double.doubleToRawLongBits(a.real(0) / a.real(2)));
            JavaFunction writing = library.wideCallback(a -> {
                library.setWord(library.call(library.function("malloc"), 8), 1);
                return a.wide(0);
            })) {
            Pointer pair = library.allocateMemory(16);
            pair.setLong(0, 0x1234_5678_9ABCL);
            pair.setDouble(8, 0.5);
            int[] words = {wide.address(), 0, pair.getInt(0), pair.getInt(4), pair.getInt(8), pair.getInt(12)};
            assertEquals(2 * 0x1234_5678_9ABCL + 1, library.callLong(library.function("apply_wide"), words));
            pair.setDouble(0, 1.5);
            words = new int[] {real.address(), 0, pair.getInt(0), pair.getInt(4), pair.getInt(8), pair.getInt(12)};
            assertEquals(3.0, Double.longBitsToDouble(library.callLong(library.function("apply_double"), words)));
            words[0] = writing.address();
            assertEquals(1.5, Double.longBitsToDouble(library.callLong(library.function("apply_double"), words)));
        }
    }

    @ParameterizedTest(name = "{0}: a structure of the program that Java reads and writes")
    @MethodSource("programs")
    void structure(String name, Program program) {
        try (Library library = program.call().library()) {
            assertEquals(51_234, call(library, "apply_point", a -> a.pointer(0).getByte(10) + a.pointer(0).getInt(0)));
            assertEquals(79_294, call(library, "apply_point", a -> {
                a.pointer(0).setInt(0, 9);
                a.pointer(0).setShort(8, (short) 9);
                return 7;
            }));
        }
    }

    @ParameterizedTest(name = "{0}: a sort with a Java comparator")
    @MethodSource("programs")
    void sort(String name, Program program) {
        try (Library library = program.call().library()) {
            int[] words = new Random(1).ints(WORDS).toArray();
            Memory memory = library.allocateMemory(4 * WORDS);
            for (int i = 0; i < WORDS; i++) {
                memory.setInt(4 * i, words[i]);
            }
            try (JavaFunction compare = library.callback(a -> Integer.compare(a.pointer(0).getInt(0), a.pointer(1).getInt(0)))) {
                library.call(library.function("sort"), memory.address(), WORDS, compare.address());
            }
            Arrays.sort(words);
            int[] sorted = new int[WORDS];
            for (int i = 0; i < WORDS; i++) {
                sorted[i] = memory.getInt(4 * i);
            }
            assertArrayEquals(words, sorted);
            memory.close();
            memory.close();
        }
    }

    @ParameterizedTest(name = "{0}: what the program keeps in registers and on its stack, over nested calls")
    @MethodSource("programs")
    void kept(String name, Program program) {
        try (Library library = program.call().library()) {
            IntUnaryOperator twice = x -> 2 * x;
            int expected = call(library, "many", a -> twice.applyAsInt(a.word(0)), 3, 5, 7);
            assertEquals(expected, call(library, "many", a -> call(library, "apply", b -> twice.applyAsInt(b.word(0)) - 1, a.word(0)), 3, 5, 7));
            assertEquals(21, call(library, "loop", a -> a.word(0) + 1, 21));
            assertEquals(21, call(library, "loop", a -> call(library, "apply", b -> b.word(0), a.word(0)), 21));
        }
    }

    /** Calls itself through C so many times. */
    private static int nested(Library library, int address, int depth) {
        return depth == 0 ? 0 : library.call(library.function("deep"), address, depth);
    }

    @ParameterizedTest(name = "{0}: calls in calls, as deep as they may be")
    @MethodSource("programs")
    void depth(String name, Program program) {
        try (Library library = program.call().library()) {
            int[] address = new int[1];
            try (JavaFunction function = library.callback(a -> nested(library, address[0], a.word(0) - 1))) {
                address[0] = function.address();
                assertEquals(CallStack.MOST_CALLS, nested(library, address[0], CallStack.MOST_CALLS));
                CallFailed failed = assertThrows(CallFailed.class, () -> nested(library, address[0], CallStack.MOST_CALLS + 1));
                assertEquals(Ending.CALLBACK_FAILED, failed.result().ending());
                Throwable root = failed;
                while (root.getCause() != null) {
                    root = root.getCause();
                }
                assertTrue(root.getMessage().contains(CallStack.MOST_CALLS + " calls"), root.toString());
                assertEquals(100, nested(library, address[0], 100));
            }
        }
    }

    @ParameterizedTest(name = "{0}: the end of the thread's stack in nested calls")
    @MethodSource("programs")
    void endOfStack(String name, Program program) throws InterruptedException {
        AtomicReference<Throwable> thrown = new AtomicReference<>();
        Thread small = new Thread(null, () -> {
            try (Library library = program.call().library()) {
                int[] address = new int[1];
                JavaFunction function = library.callback(a -> nested(library, address[0], a.word(0) - 1) + endless(1));
                address[0] = function.address();
                CallFailed failed = assertThrows(CallFailed.class, () -> nested(library, address[0], 20));
                assertEquals(5, failed.result().trap());
                function.close();
                assertEquals(42, call(library, "apply", a -> 41, 1));
            } catch (Throwable wrong) {
                thrown.set(wrong);
            }
        }, "small", 1 << 19);
        small.start();
        small.join();
        if (thrown.get() != null) {
            throw new AssertionError(thrown.get());
        }
    }

    private static int endless(int n) {
        return endless(n + 1) + 1;
    }

    @ParameterizedTest(name = "{0}: a callback that throws")
    @MethodSource("programs")
    void exceptions(String name, Program program) {
        try (Library library = program.call().library()) {
            IOException checked = new IOException("checked");
            CallFailed failed = failure(library, "apply", a -> {
                throw checked;
            }, 1);
            assertEquals(Ending.CALLBACK_FAILED, failed.result().ending());
            assertEquals(85, failed.result().status());
            assertSame(checked, failed.getCause());
            for (RuntimeException each : Arrays.asList(new NullPointerException(), new ArithmeticException(), new IndexOutOfBoundsException())) {
                assertSame(each, failure(library, "apply", a -> {
                    throw each;
                }, 1).getCause());
            }
            AssertionError error = new AssertionError();
            assertSame(error, failure(library, "apply", a -> {
                library.setWord(library.allocate(4), 1);
                throw error;
            }, 1).getCause());
            assertEquals(2, call(library, "apply", a -> 1, 1));
        }
    }

    @ParameterizedTest(name = "{0}: a callback that throws, and answers a default")
    @MethodSource("programs")
    void defaultAnswers(String name, Program program) {
        try (Library library = program.call().library()) {
            List<Integer> seen = new ArrayList<>();
            try (JavaFunction function = library.callback(a -> {
                seen.add(a.word(0));
                throw new IOException("number " + seen.size());
            }, 5)) {
                CallFailed failed = assertThrows(CallFailed.class, () -> library.call(library.function("loop"), function.address(), 3));
                assertEquals(Arrays.asList(0, 5, 5), seen);
                assertEquals("number 1", failed.getCause().getMessage());
                assertEquals(2, failed.getCause().getSuppressed().length);
            }
            assertEquals(2, call(library, "apply", a -> 1, 1));
        }
    }

    @ParameterizedTest(name = "{0}: a nested call that fails")
    @MethodSource("programs")
    void nestedFailure(String name, Program program) {
        try (Library library = program.call().library()) {
            int crash = library.function("crash");
            CallFailed failed = failure(library, "apply", a -> library.call(crash), 1);
            assertEquals(Ending.CALLBACK_FAILED, failed.result().ending());
            assertEquals(3, ((CallFailed) failed.getCause()).result().fault().kind());
            assertEquals(8, call(library, "apply", a -> {
                assertThrows(CallFailed.class, () -> library.call(crash));
                return 7;
            }, 1));
        }
    }

    @ParameterizedTest(name = "{0}: a nested call that leaves ends all")
    @MethodSource("programs")
    void nestedLeave(String name, Program program) {
        try (Library library = program.call().library()) {
            CallFailed failed = failure(library, "apply", a -> {
                assertThrows(CallFailed.class, () -> library.call(library.function("leave"), 7));
                return 1;
            }, 1);
            assertEquals(Ending.EXITED, failed.result().ending());
            assertEquals(7, failed.result().status());
            assertThrows(IllegalStateException.class, () -> library.call(library.function("jump")));
        }
    }

    @ParameterizedTest(name = "{0}: jumps over functions of Java")
    @MethodSource("programs")
    void jumps(String name, Program program) {
        try (Library library = program.call().library(); Library other = program.call().library()) {
            int jump = library.function("jump");
            assertEquals(8, call(library, "guarded", a -> 7, 1));
            assertEquals(100, call(library, "guarded", a -> library.call(jump, 0), 1));
            assertEquals(20_000, call(library, "guarded_loop", a -> library.call(jump, 0), 20_000));
            // a function of Java that catches all is left all the same, and its blocks `finally` may call
            assertEquals(100, call(library, "guarded", a -> {
                try {
                    return library.call(jump, 0);
                } catch (Throwable caught) {
                    return 5;
                } finally {
                    library.release(library.allocate(10));
                }
            }, 1));
            // over calls in between, and over another library
            assertEquals(100, call(library, "guarded", a -> call(library, "apply", b -> library.call(jump, 0), 1), 1));
            assertEquals(100, call(library, "guarded", a -> call(other, "apply", b -> library.call(jump, 0), 1), 1));
            assertEquals(8, call(other, "guarded", a -> 7, 1));
            // a jump to a call in between goes no further
            assertEquals(201, call(library, "apply", a -> 2 * call(library, "guarded", b -> library.call(jump, 0), 1), 1));
        }
    }

    @ParameterizedTest(name = "{0}: closed in a callback")
    @MethodSource("programs")
    void closed(String name, Program program) {
        Library library = program.call().library();
        JavaFunction function = library.callback(a -> {
            library.close();
            assertThrows(IllegalStateException.class, () -> library.call(library.function("jump")));
            return library.word(library.function("jump")) == 0 ? 1 : 2;
        });
        assertEquals(3, library.call(library.function("apply"), function.address(), 1));
        assertThrows(IllegalStateException.class, () -> library.call(library.function("apply"), function.address(), 1));
        assertThrows(IllegalStateException.class, () -> library.word(library.function("jump")));
        function.close();
        library.close();
    }

    @ParameterizedTest(name = "{0}: 256 callbacks of each kind")
    @MethodSource("programs")
    void addresses(String name, Program program) {
        try (Library library = program.call().library()) {
            List<JavaFunction> all = new ArrayList<>();
            for (int i = 0; i < 256; i++) {
                int number = i;
                all.add(library.callback(a -> number));
                all.add(library.wideCallback(a -> number));
            }
            assertThrows(IllegalStateException.class, () -> library.callback(a -> 0));
            assertThrows(IllegalStateException.class, () -> library.wideCallback(a -> 0));
            for (int i = 0; i < 512; i += 2) {
                assertEquals(i / 2 + 1, library.call(library.function("apply"), all.get(i).address(), 0));
                assertEquals(i / 2 + 1, library.callLong(library.function("apply_wide"), all.get(i + 1).address()));
            }
            JavaFunction last = all.get(510);
            last.close();
            last.close();
            CallFailed failed = assertThrows(CallFailed.class, () -> library.call(library.function("apply"), last.address(), 0));
            assertTrue(failed.getCause().getMessage().contains("closed"), failed.toString());
            JavaFunction next = library.callback(a -> 77);
            assertEquals(last.address(), next.address());
            last.close();
            assertEquals(78, library.call(library.function("apply"), next.address(), 0));
            assertNotEquals(next.address(), all.get(0).address());
        }
    }

    @ParameterizedTest(name = "{0}: an interrupt in a callback")
    @MethodSource("programs")
    void interrupt(String name, Program program) {
        try (Library library = program.call().library()) {
            CallFailed failed = failure(library, "loop", a -> {
                Thread.currentThread().interrupt();
                return a.word(0);
            }, 1_000_000_000);
            assertEquals(Ending.INTERRUPTED, failed.result().ending());
            assertEquals(2, call(library, "apply", a -> 1, 1));
        }
    }

    @ParameterizedTest(name = "{0}: a call out of the library's own stream")
    @MethodSource("programs")
    void ownStream(String name, Program program) {
        Library[] library = new Library[1];
        OutputStream output = new OutputStream() {
            @Override
            public void write(int value) {
                assertThrows(IllegalStateException.class, () -> library[0].call(library[0].function("jump")));
            }
        };
        try (Library made = program.call().output(output).library()) {
            library[0] = made;
            Memory text = made.allocateMemory(8);
            text.setText(0, "hello\n");
            assertEquals(6, made.call(made.function("say"), text.address()));
        }
    }

    @ParameterizedTest(name = "{0}: hostile words for stubs")
    @MethodSource("programs")
    void hostile(String name, Program program) {
        try (Library library = program.call().library(); JavaFunction function = library.callback(a -> a.word(0))) {
            int stray = library.function("stray");
            int place = library.allocateMemory(64).address();
            int[] odd = {0, 1, 3, 4, -1, Integer.MIN_VALUE, Integer.MAX_VALUE, 0x7FFFEFF0, 0x00400000, place, place + 1};
            for (int number : new int[] {-1, 0, 1, 255, 256, 511, 512, Integer.MIN_VALUE}) {
                for (int words : odd) {
                    for (int stack : odd) {
                        try {
                            library.call(stray, number, words, stack);
                        } catch (CallFailed failed) {
                            assertTrue(failed.result().ending() != Ending.EXITED, failed.toString());
                        }
                    }
                }
            }
            for (int stack : odd) {
                assertEquals(7, library.call(library.function("stray_return"), stack));
                // the function returns, or, as after a jump, the call round it
                int given = call(library, "apply", a -> library.call(library.function("stray_return"), stack), 1);
                assertTrue(given == 7 || given == 8, "the program got " + given);
            }
            assertEquals(42, call(library, "apply", a -> 41, 1));
        }
    }
}
