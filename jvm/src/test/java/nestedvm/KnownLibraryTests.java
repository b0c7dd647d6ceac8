package nestedvm;

import static org.junit.jupiter.api.Assertions.assertArrayEquals;
import static org.junit.jupiter.api.Assertions.assertEquals;
import static org.junit.jupiter.api.Assertions.assertSame;
import static org.junit.jupiter.api.Assertions.assertThrows;
import static org.junit.jupiter.api.Assertions.assertTrue;
import static org.junit.jupiter.api.Assumptions.assumeTrue;

import java.io.IOException;
import java.nio.file.Path;
import java.nio.file.Paths;
import java.util.ArrayList;
import java.util.Arrays;
import java.util.List;
import java.util.Locale;
import java.util.Random;
import java.util.zip.CRC32;
import java.util.zip.Inflater;
import org.junit.jupiter.api.DisplayName;
import org.junit.jupiter.api.Test;

/** Libraries of others in C: those that {@code jvm/guests/libraries} has made in the folder that LIBRARIES names. */
final class KnownLibraryTests {
    private static final int OK = 0;
    private static final int ABORT = 4;
    private static final int UTF_8 = 1;

    private static Library library(String name) throws IOException {
        String folder = System.getenv("LIBRARIES");
        assumeTrue(folder != null, "LIBRARIES names no folder");
        Path program = Paths.get(folder).toAbsolutePath().resolve(name);
        return Guests.program(program, "--heap", "4096").call().library();
    }

    /** Functions of zlib. */
    private interface Zlib {
        String zlibVersion();

        int compressBound(int count);

        int compress(@Out byte[] to, int[] toCount, @In byte[] from, int count);

        int uncompress(@Out byte[] to, int[] toCount, @In byte[] from, int count);

        int crc32(int before, @In byte[] bytes, int count);

        int deflateInit_(Stream stream, int level, String version, int bytes);

        int deflate(Stream stream, int flush);

        int deflateEnd(Stream stream);
    }

    /** zlib's {@code z_stream}. */
    private static final class Stream extends Structure {
        final Field<Pointer> nextIn = pointerField();
        final Field<Integer> availableIn = intField();
        final Field<Integer> totalIn = intField();
        final Field<Pointer> nextOut = pointerField();
        final Field<Integer> availableOut = intField();
        final Field<Integer> totalOut = intField();
        final Field<Pointer> message = pointerField();
        final Field<Pointer> state = pointerField();
        final Field<Pointer> allocate = pointerField();
        final Field<Pointer> free = pointerField();
        final Field<Pointer> opaque = pointerField();
        final Field<Integer> kind = intField();
        final Field<Integer> check = intField();
        final Field<Integer> reserved = intField();

        Stream(Library library) {
            super(library);
        }
    }

    private static byte[] text() {
        byte[] text = new byte[300_000];
        Random random = new Random(1);
        for (int i = 0; i < text.length; i++) {
            text[i] = (byte) ('a' + random.nextInt(4));
        }
        return text;
    }

    @Test
    @DisplayName("zlib by an interface")
    void zlib() throws Exception {
        try (Library library = library("zlib")) {
            Zlib zlib = library.as(Zlib.class);
            assertTrue(zlib.zlibVersion().startsWith("1."), zlib.zlibVersion());
            byte[] text = text();
            CRC32 crc = new CRC32();
            crc.update(text);
            assertEquals((int) crc.getValue(), zlib.crc32(0, text, text.length));
            byte[] packed = new byte[zlib.compressBound(text.length)];
            int[] count = {packed.length};
            assertEquals(OK, zlib.compress(packed, count, text, text.length));
            assertArrayEquals(text, inflated(Arrays.copyOf(packed, count[0]), text.length));
            byte[] unpacked = new byte[text.length];
            int[] unpackedCount = {unpacked.length};
            assertEquals(OK, zlib.uncompress(unpacked, unpackedCount, packed, count[0]));
            assertArrayEquals(text, unpacked);
        }
    }

    private static byte[] inflated(byte[] packed, int count) throws Exception {
        byte[] bytes = new byte[count];
        Inflater inflater = new Inflater();
        inflater.setInput(packed);
        assertEquals(count, inflater.inflate(bytes));
        inflater.end();
        return bytes;
    }

    @Test
    @DisplayName("a structure that zlib keeps, and whose memory Java allocates")
    void stream() throws Exception {
        try (Library library = library("zlib"); Stream stream = new Stream(library)) {
            Zlib zlib = library.as(Zlib.class);
            List<Integer> allocated = new ArrayList<>();
            int malloc = library.function("malloc");
            JavaFunction allocate = library.callback(a -> {
                allocated.add(a.word(1) * a.word(2));
                return library.call(malloc, a.word(1) * a.word(2));
            });
            JavaFunction free = library.callback(a -> library.call(library.function("free"), a.word(1)));
            stream.allocate.set(allocate.pointer());
            stream.free.set(free.pointer());
            assertEquals(OK, zlib.deflateInit_(stream, 6, zlib.zlibVersion(), stream.size()));
            assertTrue(allocated.size() > 2, allocated.toString());
            byte[] text = text();
            try (Memory in = library.allocateMemory(text.length); Memory out = library.allocateMemory(text.length)) {
                in.write(0, text);
                stream.nextIn.set(in);
                stream.availableIn.set(text.length);
                stream.nextOut.set(out);
                stream.availableOut.set(text.length);
                assertEquals(1, zlib.deflate(stream, 4));
                assertEquals(text.length, stream.totalIn.get().intValue());
                assertArrayEquals(text, inflated(out.read(0, stream.totalOut.get()), text.length));
            }
            assertEquals(OK, zlib.deflateEnd(stream));
        }
    }

    /** What SQLite calls for each row. */
    private interface Row {
        @DefaultAnswer(1)
        int row(Pointer data, int count, Pointer values, Pointer names) throws IOException;
    }

    /** What SQLite calls to order two texts. */
    private interface Collation {
        int compare(Pointer data, int firstBytes, Pointer first, int secondBytes, Pointer second);
    }

    /** A function for statements. */
    private interface SqlFunction {
        void call(Pointer context, int count, Pointer values);
    }

    /** A comparison of what two pointers point to. */
    private interface Comparison {
        int compare(Pointer first, Pointer second);
    }

    /** Functions of SQLite, and some of the C library. */
    private interface Base {
        @FunctionName("sqlite3_open")
        int open(String file, int[] base);

        @FunctionName("sqlite3_close")
        int close(int base);

        @FunctionName("sqlite3_exec")
        int execute(int base, String statements, Row row, Pointer data, int[] message);

        @FunctionName("sqlite3_errmsg")
        String message(int base);

        @FunctionName("sqlite3_create_collation")
        int createCollation(int base, String name, int encoding, Pointer data, JavaFunction collation);

        @FunctionName("sqlite3_create_function")
        int createFunction(int base, String name, int count, int encoding, Pointer data, JavaFunction call, Pointer step, Pointer end);

        @FunctionName("sqlite3_value_double")
        double value(Pointer value);

        @FunctionName("sqlite3_result_double")
        void result(Pointer context, double value);

        void qsort(int[] of, int count, int bytes, Comparison compare);

        double strtod(String text, int[] end);
    }

    private static List<String> query(Base base, int file, String statements) {
        List<String> rows = new ArrayList<>();
        int status = base.execute(file, statements, (data, count, values, names) -> {
            StringBuilder row = new StringBuilder();
            for (int i = 0; i < count; i++) {
                Pointer value = values.getPointer(4 * i);
                row.append(i == 0 ? "" : "|").append(value == null ? "null" : value.getText(0));
            }
            rows.add(row.toString());
            return 0;
        }, null, null);
        assertEquals(OK, status, base.message(file));
        return rows;
    }

    private static int open(Base base) {
        int[] file = new int[1];
        assertEquals(OK, base.open(":memory:", file));
        return file[0];
    }

    @Test
    @DisplayName("rows of SQLite, and what is thrown at one")
    void rows() throws Exception {
        try (Library library = library("sqlite")) {
            Base base = library.as(Base.class);
            int file = open(base);
            assertEquals(Arrays.asList("1|null", "2|0.5"), query(base, file, "select 1, null union select 2, 0.5"));
            IOException thrown = new IOException("a row");
            CallFailed failed = assertThrows(CallFailed.class, () -> base.execute(file, "select 1", (data, count, values, names) -> {
                throw thrown;
            }, null, null));
            assertSame(thrown, failed.getCause());
            assertEquals(ABORT, base.execute(file, "select 1", (data, count, values, names) -> 1, null, null));
            // SQLite has seen an answer each time, so nothing is left open
            assertEquals(OK, base.close(file));
        }
    }

    @Test
    @DisplayName("a collation and a function of Java in SQLite")
    void collation() throws Exception {
        try (Library library = library("sqlite")) {
            Base base = library.as(Base.class);
            int file = open(base);
            JavaFunction collation = library.callback(Collation.class, (data, firstBytes, first, secondBytes, second) -> {
                String one = Texts.text(first.read(0, firstBytes)).toLowerCase(Locale.ROOT);
                return one.compareTo(Texts.text(second.read(0, secondBytes)).toLowerCase(Locale.ROOT));
            });
            JavaFunction half = library.callback(SqlFunction.class, (context, count, values) ->
                base.result(context, base.value(values.getPointer(0)) / 2));
            assertEquals(OK, base.createCollation(file, "java", UTF_8, null, collation));
            assertEquals(OK, base.createFunction(file, "half", 1, UTF_8, null, half, null, null));
            query(base, file, "create table t (x text collate java); insert into t values ('b'), ('C'), ('a'), ('\u00E4')");
            assertEquals(Arrays.asList("a", "b", "C", "\u00E4"), query(base, file, "select x from t order by x"));
            assertEquals(Arrays.asList("3.5"), query(base, file, "select half(7)"));
            // a row function that asks the same base
            List<String> all = new ArrayList<>();
            assertEquals(OK, base.execute(file, "select 1 union select 2", (data, count, values, names) -> {
                all.addAll(query(base, file, "select half(" + values.getPointer(0).getText(0) + ")"));
                return 0;
            }, null, null));
            assertEquals(Arrays.asList("0.5", "1.0"), all);
            assertEquals(OK, base.close(file));
        }
    }

    @Test
    @DisplayName("qsort with a comparator of Java")
    void qsort() throws Exception {
        try (Library library = library("sqlite")) {
            Base base = library.as(Base.class);
            int[] words = new Random(1).ints(10_000).toArray();
            int[] sorted = words.clone();
            Arrays.sort(sorted);
            base.qsort(words, words.length, Integer.BYTES, (first, second) -> Integer.compare(first.getInt(0), second.getInt(0)));
            assertArrayEquals(sorted, words);
            assertEquals(-12.5e10, base.strtod("-12.5e10", null));
        }
    }
}
