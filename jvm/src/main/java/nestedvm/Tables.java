package nestedvm;

import java.util.Arrays;
import java.util.function.BiConsumer;

/**
 * The two tables of pages of a program, which serve one run after the other: to make them anew takes longer than to clear them, most of all where the
 * collector of garbage treats large arrays apart.
 */
final class Tables {
    /** The pages of the addresses below 80000000. */
    static final int PAGES = 524_288;

    private final int[][] readable = new int[PAGES][];
    private final int[][] writable = new int[PAGES][];

    /** The numbers of the pages that were put. */
    private int[] numbers = new int[512];
    private int count;

    /** The pages that can be read. */
    int[][] readable() {
        return readable;
    }

    /** The pages that may be written. */
    int[][] writable() {
        return writable;
    }

    /** Does something with each page that may be written, and its number. */
    void forEachWritable(BiConsumer<Integer, int[]> deed) {
        for (int i = 0; i < count; i++) {
            if (writable[numbers[i]] != null) {
                deed.accept(numbers[i], writable[numbers[i]]);
            }
        }
    }

    /** Whether there is a page of a number. */
    boolean has(int number) {
        return readable[number] != null;
    }

    /** Puts a page at a number, which may be written or not. */
    void put(int number, int[] page, boolean mayWrite) {
        if (count == numbers.length) {
            numbers = Arrays.copyOf(numbers, 2 * count);
        }
        numbers[count++] = number;
        readable[number] = page;
        if (mayWrite) {
            writable[number] = page;
        }
    }

    /**
     * Drops all pages. Translated classes have put none, so a look whether others have is enough, which is shorter than to set all to null. Nothing is
     * allocated.
     */
    void clear() {
        for (int i = 0; i < count; i++) {
            readable[numbers[i]] = null;
            writable[numbers[i]] = null;
        }
        count = 0;
        if (!isEmpty(readable)) {
            Arrays.fill(readable, null);
        }
        if (!isEmpty(writable)) {
            Arrays.fill(writable, null);
        }
    }

    private static boolean isEmpty(int[][] table) {
        for (int[] page : table) {
            if (page != null) {
                return false;
            }
        }
        return true;
    }
}
