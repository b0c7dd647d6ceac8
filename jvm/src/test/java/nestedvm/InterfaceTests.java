package nestedvm;

import static org.junit.jupiter.api.Assertions.assertArrayEquals;
import static org.junit.jupiter.api.Assertions.assertEquals;
import static org.junit.jupiter.api.Assertions.assertNotEquals;
import static org.junit.jupiter.api.Assertions.assertNull;
import static org.junit.jupiter.api.Assertions.assertSame;
import static org.junit.jupiter.api.Assertions.assertThrows;
import static org.junit.jupiter.api.Assertions.assertTrue;
import static org.junit.jupiter.params.provider.Arguments.arguments;

import java.io.IOException;
import java.nio.ByteBuffer;
import java.nio.ByteOrder;
import java.nio.charset.StandardCharsets;
import java.util.ArrayList;
import java.util.Arrays;
import java.util.List;
import java.util.Random;
import java.util.stream.Stream;
import org.junit.jupiter.params.ParameterizedTest;
import org.junit.jupiter.params.provider.Arguments;
import org.junit.jupiter.params.provider.MethodSource;

/** Functions of C by interfaces of Java, of both orders of bytes. */
final class InterfaceTests {
    private static Stream<Arguments> programs() throws IOException {
        return Stream.of(
            arguments("big-endian", Guests.program("types")),
            arguments("little-endian", Guests.program("types-little")));
    }

    /** A structure of {@code types.c}. */
    private static final class Sample extends Structure {
        final Field<Byte> kind = byteField();
        final Field<Short> level = shortField();
        final Field<Integer> count = intField();
        final Field<Pointer> next = pointerField();
        final Field<byte[]> name = bytesField(5);
        final Field<Double> weight = doubleField();
        final Field<Boolean> isGood = booleanField();
        final Field<Long> total = longField();
        final Field<Float> part = floatField();

        Sample(Library library) {
            super(library);
        }

        Sample(Pointer place) {
            super(place);
        }
    }

    /** What is done with each sample. */
    private interface Visit {
        int visit(Sample sample, String name) throws IOException;
    }

    /** The same, where C is to go on when it throws. */
    private interface PatientVisit {
        @DefaultAnswer(100)
        int visit(Sample sample, String name) throws IOException;
    }

    /** Two numbers that make one. */
    private interface Adder {
        int add(int first, int second);
    }

    /** The functions of {@code types.c}. */
    private interface Types {
        @FunctionName("negated_byte")
        byte negated(byte x);

        @FunctionName("negated_short")
        short negated(short x);

        @FunctionName("next_char")
        char next(char x);

        @FunctionName("negated_int")
        int negated(int x);

        @FunctionName("negated_long")
        long negated(long x);

        @FunctionName("negated_boolean")
        boolean negated(boolean x);

        @FunctionName("same_float")
        float same(float x);

        @FunctionName("same_double")
        double same(double x);

        long mixed(byte a, long b, short c, double d, int e, float f, long g);

        int length(String text);

        @FunctionName("length")
        int latinLength(@Encoding("ISO-8859-1") String text);

        String greeting(int which);

        @FunctionName("greeting")
        @Encoding("ISO-8859-1")
        String latinGreeting(int which);

        void reverse(byte[] bytes, int count);

        void reverse(ByteBuffer bytes, int count);

        int sum(@In byte[] bytes, int count);

        @FunctionName("reverse")
        void reverseInOnly(@In byte[] bytes, int count);

        @FunctionName("count_up")
        void countUp(@Out byte[] bytes, int count);

        @FunctionName("next_shorts")
        int nextShorts(short[] of, int count);

        @FunctionName("next_shorts")
        int nextChars(char[] of, int count);

        @FunctionName("next_ints")
        int nextInts(int[] of, int count);

        @FunctionName("next_longs")
        int nextLongs(long[] of, int count);

        @FunctionName("turn_doubles")
        void turn(double[] of, int count);

        @FunctionName("turn_doubles")
        void turnFloats(float[] of, int count);

        @FunctionName("size_of_sample")
        int sizeOfSample();

        Sample advance(Sample sample);

        int each(Sample first, Visit visit);

        @FunctionName("each")
        int eachPatiently(Sample first, PatientVisit visit);

        int add(int a, int b);

        @FunctionName("adder_of")
        Pointer adder();

        void keep(JavaFunction adder);

        @FunctionName("call_kept")
        int callKept(int a, int b);

        long all(String kinds, Object... values);

        default int twice(int x) {
            return add(x, x);
        }
    }

    @ParameterizedTest(name = "{0}: primitive types")
    @MethodSource("programs")
    void primitives(String name, Program program) {
        try (Library library = program.call().library()) {
            Types types = library.as(Types.class);
            assertEquals((byte) 127, types.negated((byte) -127));
            assertEquals((byte) -128, types.negated((byte) -128));
            assertEquals((short) -32_000, types.negated((short) 32_000));
            assertEquals('\uFFFF', types.next('\uFFFE'));
            assertEquals('\0', types.next('\uFFFF'));
            assertEquals(Integer.MIN_VALUE, types.negated(Integer.MIN_VALUE));
            assertEquals(-0x0123_4567_89AB_CDEFL, types.negated(0x0123_4567_89AB_CDEFL));
            assertTrue(types.negated(false));
            assertTrue(!types.negated(true));
            for (float x : new float[] {0, -0f, 1.5f, Float.MIN_VALUE, Float.MAX_VALUE, Float.NEGATIVE_INFINITY, Float.NaN}) {
                assertEquals(x, types.same(x));
            }
            for (double x : new double[] {0, -0d, 0.1, Double.MIN_VALUE, Double.MAX_VALUE, Double.NEGATIVE_INFINITY, Double.NaN}) {
                assertEquals(x, types.same(x));
            }
            long expected = -3 ^ 0x1234_5678_9ABCL ^ -300 ^ Double.doubleToRawLongBits(0.1) ^ 70_000 ^ Float.floatToRawIntBits(0.2f) ^ Long.MIN_VALUE;
            assertEquals(expected, types.mixed((byte) -3, 0x1234_5678_9ABCL, (short) -300, 0.1, 70_000, 0.2f, Long.MIN_VALUE));
        }
    }

    @ParameterizedTest(name = "{0}: texts")
    @MethodSource("programs")
    void texts(String name, Program program) {
        try (Library library = program.call().library()) {
            Types types = library.as(Types.class);
            String text = "gr\u00FC\u00DFe";
            assertEquals(7, types.length(text));
            assertEquals(5, types.latinLength(text));
            assertEquals(0, types.length(""));
            assertEquals(-1, types.length(null));
            char[] many = new char[100_000];
            Arrays.fill(many, 'x');
            assertEquals(100_000, types.length(new String(many)));
            assertThrows(IllegalArgumentException.class, () -> types.length("a\0b"));
            assertNull(types.greeting(0));
            assertEquals(text, types.greeting(1));
            assertEquals(text, types.latinGreeting(2));
        }
    }

    @ParameterizedTest(name = "{0}: arrays and buffers")
    @MethodSource("programs")
    void arrays(String name, Program program) {
        try (Library library = program.call().library()) {
            Types types = library.as(Types.class);
            for (int count : new int[] {0, 1, 7, 2047, 2048, 2049, 100_000}) {
                byte[] bytes = new byte[count];
                new Random(count).nextBytes(bytes);
                byte[] given = bytes.clone();
                types.reverse(given, count);
                for (int i = 0; i < count; i++) {
                    assertEquals(bytes[i], given[count - 1 - i]);
                }
                int sum = 0;
                for (byte each : bytes) {
                    sum += each & 0xFF;
                }
                assertEquals(sum, types.sum(bytes, count));
                given = bytes.clone();
                types.reverseInOnly(given, count);
                assertArrayEquals(bytes, given);
            }
            byte[] counted = new byte[300];
            types.countUp(counted, counted.length);
            assertEquals((byte) 255, counted[255]);
            assertEquals(0, types.sum(null, 0));
            short[] shorts = {1, -1, 300};
            assertEquals(3, types.nextShorts(shorts, 3));
            assertArrayEquals(new short[] {2, 0, 301}, shorts);
            char[] chars = {'a', '\uFFFE'};
            types.nextChars(chars, 2);
            assertArrayEquals(new char[] {'b', '\uFFFF'}, chars);
            int[] ints = {1, -1, 70_000};
            types.nextInts(ints, 2);
            assertArrayEquals(new int[] {2, 0, 70_000}, ints);
            long[] longs = {-1, 0x1_0000_0000L};
            types.nextLongs(longs, 2);
            assertArrayEquals(new long[] {0, 0x1_0000_0001L}, longs);
            double[] doubles = {0.5, 1.5, 2.5};
            types.turn(doubles, 3);
            assertArrayEquals(new double[] {2.5, 1.5, 0.5}, doubles);
            float[] floats = {0.5f, 1.5f, 2.5f, 3.5f};
            types.turnFloats(floats, 2);
            assertArrayEquals(new float[] {2.5f, 3.5f, 0.5f, 1.5f}, floats);
        }
    }

    @ParameterizedTest(name = "{0}: buffers, of which a part counts")
    @MethodSource("programs")
    void buffers(String name, Program program) {
        try (Library library = program.call().library()) {
            Types types = library.as(Types.class);
            for (ByteBuffer buffer : Arrays.asList(ByteBuffer.allocate(10), ByteBuffer.allocateDirect(10))) {
                for (byte i = 0; i < 10; i++) {
                    buffer.put(i);
                }
                buffer.limit(7).position(3);
                types.reverse(buffer, 4);
                assertEquals(3, buffer.position());
                byte[] all = new byte[10];
                buffer.clear();
                buffer.get(all);
                assertArrayEquals(new byte[] {0, 1, 2, 6, 5, 4, 3, 7, 8, 9}, all);
                buffer.rewind();
                types.reverse(buffer.asReadOnlyBuffer(), 10);
                assertEquals(0, buffer.get(0));
            }
        }
    }

    @ParameterizedTest(name = "{0}: structures")
    @MethodSource("programs")
    void structures(String name, Program program) {
        try (Library library = program.call().library()) {
            Types types = library.as(Types.class);
            Sample first = new Sample(library);
            Sample second = new Sample(library);
            assertEquals(types.sizeOfSample(), first.size());
            assertEquals(24, first.weight.offset());
            first.kind.set((byte) -1);
            first.level.set((short) 299);
            first.next.set(second.pointer());
            first.name.set(Texts.bytes("ab\0\0\0"));
            first.weight.set(0.5);
            first.part.set(0.25f);
            first.total.set(0xFFFF_FFFFL);
            Sample next = types.advance(first);
            assertEquals(second.pointer(), next.pointer());
            assertNull(types.advance(next));
            assertEquals(0, first.kind.get().intValue());
            assertEquals(300, first.level.get().intValue());
            assertEquals(1, first.count.get().intValue());
            assertEquals("bb", first.name.pointer().getText(0));
            assertEquals(0.5, first.weight.get());
            assertTrue(first.isGood.get());
            assertEquals(0x1_0000_0000L, first.total.get().longValue());
            assertEquals(0.25f, first.part.get());
            assertEquals(1, second.count.get().intValue());
            assertThrows(IllegalArgumentException.class, () -> first.name.set(new byte[4]));
            first.close();
            first.close();
            assertThrows(IllegalStateException.class, first::pointer);
        }
    }

    @ParameterizedTest(name = "{0}: functions of Java")
    @MethodSource("programs")
    void functions(String name, Program program) {
        try (Library library = program.call().library(); Sample first = new Sample(library); Sample second = new Sample(library)) {
            Types types = library.as(Types.class);
            first.next.set(second.pointer());
            first.name.pointer().setText(0, "one");
            second.name.pointer().setText(0, "two");
            List<String> names = new ArrayList<>();
            assertEquals(2, types.each(first, (sample, text) -> {
                names.add(text);
                sample.count.set(7);
                return 1;
            }));
            assertEquals(Arrays.asList("one", "two"), names);
            assertEquals(7, second.count.get().intValue());
            IOException thrown = new IOException();
            CallFailed failed = assertThrows(CallFailed.class, () -> types.each(first, (sample, text) -> {
                throw thrown;
            }));
            assertSame(thrown, failed.getCause());
            names.clear();
            failed = assertThrows(CallFailed.class, () -> types.eachPatiently(first, (sample, text) -> {
                names.add(text);
                throw thrown;
            }));
            assertSame(thrown, failed.getCause());
            assertEquals(2, names.size());
            // addresses are given back behind each call
            for (int i = 0; i < 1000; i++) {
                int number = i;
                assertEquals(2 * number, types.each(first, (sample, text) -> number));
            }
            try (JavaFunction adder = library.callback(Adder.class, (a, b) -> 10 * a + b)) {
                types.keep(adder);
                assertEquals(12, types.callKept(1, 2));
                assertEquals(12, library.call(adder.address(), 1, 2));
            }
            assertThrows(CallFailed.class, () -> types.callKept(1, 2));
            assertEquals(library.function("add"), types.adder().address());
            assertEquals(42, library.as(Adder.class, types.adder()).add(20, 22));
            assertThrows(IllegalArgumentException.class, () -> library.as(Types.class, types.adder()));
        }
    }

    @ParameterizedTest(name = "{0}: open lists of arguments")
    @MethodSource("programs")
    void openLists(String name, Program program) {
        try (Library library = program.call().library()) {
            Types types = library.as(Types.class);
            assertEquals(0, types.all(""));
            assertEquals(-3 ^ 5L << 40 ^ 300, types.all("ili", (byte) -3, 5L << 40, (short) 300));
            long expected = 7 ^ Double.doubleToRawLongBits(0.1) ^ Double.doubleToRawLongBits(0.25) ^ 4 ^ -1;
            assertEquals(expected, types.all("iddtt", 7, 0.1, 0.25f, "text", null));
            assertThrows(IllegalArgumentException.class, () -> types.all("i", new Object()));
        }
    }

    @ParameterizedTest(name = "{0}: methods of the interface itself")
    @MethodSource("programs")
    void ownMethods(String name, Program program) {
        try (Library library = program.call().library()) {
            Types types = library.as(Types.class);
            assertEquals(42, types.twice(21));
            assertEquals(types, types);
            assertNotEquals(types, library.as(Types.class));
            assertEquals(types.hashCode(), types.hashCode());
            assertTrue(types.toString().endsWith("Types"), types.toString());
        }
    }

    /** A function that is not there. */
    private interface Missing {
        int none();
    }

    /** A type that C does not have. */
    private interface Wrong {
        int add(Object first, int second);
    }

    /** An array that C cannot give. */
    private interface WrongResult {
        @FunctionName("greeting")
        byte[] bytes();
    }

    /** More than a function. */
    private interface Two {
        int add(List<String> list);
    }

    @ParameterizedTest(name = "{0}: interfaces that are refused")
    @MethodSource("programs")
    void refused(String name, Program program) {
        try (Library library = program.call().library(); Library other = program.call().library()) {
            for (Class<?> each : Arrays.asList(Missing.class, Wrong.class, WrongResult.class, Two.class, String.class)) {
                IllegalArgumentException thrown = assertThrows(IllegalArgumentException.class, () -> library.as(each));
                assertTrue(thrown.getMessage().length() > 10, thrown.getMessage());
            }
            Sample foreign = new Sample(other);
            assertThrows(IllegalArgumentException.class, () -> library.as(Types.class).advance(foreign));
            Types types = library.as(Types.class);
            library.close();
            assertThrows(IllegalStateException.class, () -> types.add(1, 2));
        }
    }

    @ParameterizedTest(name = "{0}: closed by a function of Java")
    @MethodSource("programs")
    void closed(String name, Program program) {
        Library library = program.call().library();
        Types types = library.as(Types.class);
        Sample sample = new Sample(library);
        assertEquals(5, types.each(sample, (each, text) -> {
            library.close();
            return 5;
        }));
        assertThrows(IllegalStateException.class, () -> types.add(1, 2));
        sample.close();
    }

    @ParameterizedTest(name = "{0}: pointers")
    @MethodSource("programs")
    void pointers(String name, Program program) {
        try (Library library = program.call().library(); Memory memory = library.allocateMemory(64)) {
            memory.setLong(8, 0x0123_4567_89AB_CDEFL);
            assertEquals(0x0123_4567_89AB_CDEFL, memory.getLong(8));
            boolean isBig = memory.order() == ByteOrder.BIG_ENDIAN;
            assertEquals(isBig ? 0x0123_4567 : 0x89AB_CDEF, memory.getInt(8));
            Pointer turned = memory.order(isBig ? ByteOrder.LITTLE_ENDIAN : ByteOrder.BIG_ENDIAN);
            assertEquals(0xEFCD_AB89_6745_2301L, turned.getLong(8));
            turned.setInt(1, 0x1122_3344);
            assertEquals(0x4433_2211, memory.getInt(1));
            turned.setShort(5, (short) 0x1122);
            assertEquals(0x2211, memory.getShort(5));
            memory.setDouble(16, 0.1);
            assertEquals(0.1, memory.getDouble(16));
            memory.setFloat(17, 0.1f);
            assertEquals(0.1f, memory.getFloat(17));
            memory.setPointer(4, memory.slice(3));
            assertEquals(memory.slice(3), memory.getPointer(4));
            memory.setPointer(4, null);
            assertNull(memory.getPointer(4));
            memory.setText(3, "gr\u00FC\u00DFe");
            assertEquals("gr\u00FC\u00DFe", memory.getText(3));
            memory.setText(3, "gr\u00FC\u00DFe", StandardCharsets.ISO_8859_1);
            assertEquals("gr\u00FC\u00DFe", memory.getText(3, StandardCharsets.ISO_8859_1));
            memory.write(1, ByteBuffer.wrap(new byte[] {1, 2, 3, 4, 5}, 1, 3));
            assertArrayEquals(new byte[] {2, 3, 4}, memory.read(1, 3));
            bounds(memory);
        }
    }

    private static void bounds(Memory memory) {
        Pointer slice = memory.slice(8, 8);
        assertEquals(8, slice.size());
        assertEquals(3, slice.slice(5).size());
        slice.setLong(0, 1);
        assertThrows(IndexOutOfBoundsException.class, () -> slice.getLong(1));
        assertThrows(IndexOutOfBoundsException.class, () -> slice.getInt(-1));
        assertThrows(IndexOutOfBoundsException.class, () -> slice.setByte(8, (byte) 0));
        assertThrows(IndexOutOfBoundsException.class, () -> slice.slice(9));
        assertThrows(IndexOutOfBoundsException.class, () -> slice.slice(4, 5));
        assertThrows(IndexOutOfBoundsException.class, () -> slice.slice(0, -1));
        assertThrows(IndexOutOfBoundsException.class, () -> slice.write(0, new byte[9]));
        assertThrows(IndexOutOfBoundsException.class, () -> slice.setText(0, "12345678"));
        slice.write(0, Texts.bytes("12345678"));
        assertThrows(IndexOutOfBoundsException.class, () -> slice.getText(0));
        Pointer nowhere = new Pointer(memory.library(), 0);
        assertEquals(-1, nowhere.size());
        assertThrows(IllegalArgumentException.class, () -> nowhere.getInt(0));
        assertThrows(IllegalArgumentException.class, () -> nowhere.setLong(0, 1));
    }
}
