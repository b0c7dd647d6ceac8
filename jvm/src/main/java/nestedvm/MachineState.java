package nestedvm;

import java.util.Map;
import java.util.TreeMap;

/** The registers and the memory of a program between two of its instructions. */
final class MachineState {
    /** The bytes of what names a program. */
    static final int PROGRAM_BYTES = 32;

    /** The fields of a main class that have the registers, in the order in which they stand here. */
    private static final String[] FIELDS = fields();

    private static final int LINK = FIELDS.length - 1;
    private static final int PAGE_WORDS = 1024;
    private static final int MOST_HEAP_PAGES = 32_768;

    /** What the program begins with, by its checksum. */
    private final byte[] program;

    private final long instructions;
    private final int[] registers;
    private final int heapPages;

    /** The pages that are not as they began, by their numbers. */
    private final Map<Integer, int[]> pages;

    MachineState(byte[] program, long instructions, int[] registers, int heapPages, Map<Integer, int[]> pages) {
        this.program = program;
        this.instructions = instructions;
        this.registers = registers;
        this.heapPages = heapPages;
        this.pages = pages;
    }

    private static String[] fields() {
        String[] names = new String[36];
        for (int i = 1; i <= 31; i++) {
            names[i - 1] = "r" + i;
        }
        String[] others = {"hi", "lo", "pc", "ll", "lf"};
        System.arraycopy(others, 0, names, 31, others.length);
        return names;
    }

    /** The registers that the fields of a main class have. */
    static int[] registersOf(StaticFields fields) throws IllegalAccessException {
        int[] registers = new int[FIELDS.length];
        for (int i = 0; i < registers.length; i++) {
            registers[i] = fields.getInt(FIELDS[i]);
        }
        return registers;
    }

    /** Puts the registers into the fields of a main class. */
    void putRegisters(StaticFields fields) throws IllegalAccessException {
        for (int i = 0; i < registers.length; i++) {
            fields.setInt(FIELDS[i], registers[i]);
        }
    }

    byte[] program() {
        return program;
    }

    long instructions() {
        return instructions;
    }

    int heapPages() {
        return heapPages;
    }

    Map<Integer, int[]> pages() {
        return pages;
    }

    void write(SnapshotWriter writer) {
        writer.putRaw(program);
        writer.putLong(instructions);
        writer.putInts(registers);
        writer.putInt(heapPages);
        writer.putInt(pages.size());
        pages.forEach((number, words) -> {
            writer.putInt(number);
            writer.putInts(words);
        });
    }

    /** Reads what {@link #write} wrote. */
    static MachineState read(SnapshotReader reader) {
        byte[] program = reader.raw(PROGRAM_BYTES);
        long instructions = reader.longNumber();
        SnapshotReader.need(instructions >= 0, "the number of instructions is negative");
        int[] registers = reader.ints(FIELDS.length);
        SnapshotReader.need((registers[LINK] & ~1) == 0, "the link is neither there nor not");
        int heapPages = reader.numberUpTo(MOST_HEAP_PAGES, "the pages of a heap");
        return new MachineState(program, instructions, registers, heapPages, readPages(reader));
    }

    private static Map<Integer, int[]> readPages(SnapshotReader reader) {
        Map<Integer, int[]> pages = new TreeMap<>();
        int count = reader.numberUpTo(Tables.PAGES, "the pages");
        int last = -1;
        for (int i = 0; i < count; i++) {
            int number = reader.numberUpTo(Tables.PAGES - 1, "the numbers of pages");
            SnapshotReader.need(number > last, "the numbers of pages do not rise");
            pages.put(number, reader.ints(PAGE_WORDS));
            last = number;
        }
        return pages;
    }
}
