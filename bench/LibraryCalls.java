import java.nio.file.Paths;
import nestedvm.JavaFunction;
import nestedvm.Library;
import nestedvm.Memory;
import nestedvm.Pointer;
import nestedvm.Program;

/**
 * Times calls between Java and C once they are warm, and copies of bytes: of the programs {@code functions}, {@code callbacks} and {@code types} of
 * {@code jvm/guests}, each translated in a folder of its name. Times are the least of many rounds, so that other load of the machine counts little.
 */
public final class LibraryCalls {
    private static final int ROUNDS = 3_000;
    private static final int ROUND = 1_000;
    private static final int SORTED = 100_000;
    private static final int BYTES = 1 << 19;

    private LibraryCalls() {
    }

    /** Functions of {@code types.c}. */
    public interface Types {
        int add(int a, int b);

        int length(String text);

        int sum(byte[] bytes, int count);
    }

    /** Functions of {@code callbacks.c}. */
    public interface Callbacks {
        int loop(Next next, int count);

        void sort(Pointer words, int count, JavaFunction compare);
    }

    /** A function of a number. */
    public interface Next {
        int next(int number);
    }

    /** A comparison of what two pointers point to. */
    public interface Comparison {
        int compare(Pointer first, Pointer second);
    }

    /** What is timed: so many calls of something. */
    interface Timed {
        void run(int count);
    }

    /**
     * Prints a line for each kind of call.
     *
     * @param words the folder of the programs
     * @throws Exception where a program cannot be run
     */
    public static void main(String[] words) throws Exception {
        try (Library functions = library(words[0], "functions"); Library types = library(words[0], "types")) {
            calls(functions, types.as(Types.class));
            copies(functions);
        }
        try (Library callbacks = library(words[0], "callbacks")) {
            callbacks(callbacks, callbacks.as(Callbacks.class));
        }
    }

    private static Library library(String folder, String name) throws Exception {
        return Program.inFolder(Paths.get(folder, name), "Main").call().library();
    }

    private static void calls(Library functions, Types types) {
        int add = functions.function("add");
        tell("a call of C", ROUND, count -> {
            for (int i = 0; i < count; i++) {
                functions.call(add, i, 1);
            }
        });
        tell("the same by an interface", ROUND, count -> {
            for (int i = 0; i < count; i++) {
                types.add(i, 1);
            }
        });
        tell("with a text of 16 characters", ROUND, count -> {
            for (int i = 0; i < count; i++) {
                types.length("0123456789abcdef");
            }
        });
        byte[] bytes = new byte[256];
        tell("with an array of 256 bytes, there and back", ROUND, count -> {
            for (int i = 0; i < count; i++) {
                types.sum(bytes, 0);
            }
        });
    }

    private static void callbacks(Library library, Callbacks callbacks) {
        int loop = library.function("loop");
        try (JavaFunction next = library.callback(a -> a.word(0) + 1);
            Memory memory = library.allocateMemory(4);
            JavaFunction writing = library.callback(a -> {
                memory.setInt(0, 1);
                return a.word(0) + 1;
            });
            JavaFunction calling = library.callback(a -> library.call(loop, 0, 0) + 1)) {
            tell("a call of Java by C", ROUND, count -> library.call(loop, next.address(), count));
            tell("the same by an interface", ROUND, count -> callbacks.loop(number -> number + 1, count));
            tell("one that writes into the memory", ROUND, count -> library.call(loop, writing.address(), count));
            tell("one that calls C", ROUND, count -> library.call(loop, calling.address(), count));
        }
        sort(library, callbacks);
    }

    private static void sort(Library library, Callbacks callbacks) {
        Memory memory = library.allocateMemory(4 * SORTED);
        long[] compared = new long[1];
        try (JavaFunction compare = library.callback(Comparison.class, (a, b) -> {
            compared[0]++;
            return Integer.compare(a.getInt(0), b.getInt(0));
        })) {
            long least = Long.MAX_VALUE;
            for (int round = 0; round < 10; round++) {
                for (int i = 0; i < SORTED; i++) {
                    memory.setInt(4 * i, i * 1_664_525 + 1_013_904_223);
                }
                compared[0] = 0;
                long start = System.nanoTime();
                callbacks.sort(memory, SORTED, compare);
                least = Math.min(least, (System.nanoTime() - start) / compared[0]);
            }
            System.out.printf("a comparison of a sort of %d words: %d ns%n", SORTED, least);
        }
    }

    private static void copies(Library library) {
        Memory memory = library.allocateMemory(BYTES);
        byte[] bytes = new byte[BYTES];
        double writing = least(1, count -> memory.write(0, bytes));
        double reading = least(1, count -> library.read(memory.address(), BYTES));
        System.out.printf("bytes written: %.1f GB/s, read: %.1f GB/s%n", BYTES / writing, BYTES / reading);
    }

    /** Prints the least nanoseconds of one of so many calls. */
    static void tell(String name, int count, Timed timed) {
        System.out.printf("%s: %.0f ns%n", name, least(count, timed));
    }

    /** The least nanoseconds of one of so many calls. */
    private static double least(int count, Timed timed) {
        long least = Long.MAX_VALUE;
        for (int round = 0; round < ROUNDS; round++) {
            long start = System.nanoTime();
            timed.run(count);
            least = Math.min(least, System.nanoTime() - start);
        }
        return (double) least / count;
    }
}
