import java.io.IOException;
import java.nio.BufferUnderflowException;
import java.nio.ByteBuffer;
import java.nio.ByteOrder;
import java.nio.charset.StandardCharsets;
import java.nio.file.Files;
import java.nio.file.Paths;
import java.util.TreeMap;

/**
 * Prints the functions of a program by their addresses: {@code java Symbols.java PROGRAM}, a line for each as {@code 00400170 main}. It is an ELF file of
 * 32 bits; one that was stripped has none.
 */
public final class Symbols {
    private static final int SECTION_OFFSET = 0x20;
    private static final int SECTION_COUNT = 0x30;
    private static final int SECTION_BYTES = 40;
    private static final int SYMBOL_BYTES = 16;
    private static final int SYMBOL_TABLE = 2;
    private static final int FUNCTION = 2;
    private static final int NO_TYPE = 0;
    private static final int EXECUTABLE = 4;

    private final ByteBuffer file;
    private final TreeMap<Integer, String> functions = new TreeMap<>(Integer::compareUnsigned);

    private Symbols(byte[] bytes) {
        file = ByteBuffer.wrap(bytes).order(bytes[5] == 1 ? ByteOrder.LITTLE_ENDIAN : ByteOrder.BIG_ENDIAN);
    }

    /**
     * Prints them.
     *
     * @param words the program
     * @throws IOException where it cannot be read
     */
    public static void main(String[] words) throws IOException {
        Symbols symbols = new Symbols(Files.readAllBytes(Paths.get(words[0])));
        try {
            symbols.read();
        } catch (IndexOutOfBoundsException | BufferUnderflowException cut) {
            throw new IOException(words[0] + " is no ELF file of 32 bits", cut);
        }
        symbols.functions.forEach((address, name) -> System.out.printf("%08X %s%n", address, name));
    }

    private void read() {
        int sections = file.getInt(SECTION_OFFSET);
        int count = file.getShort(SECTION_COUNT) & 0xFFFF;
        for (int i = 0; i < count; i++) {
            int section = sections + i * SECTION_BYTES;
            if (file.getInt(section + 4) == SYMBOL_TABLE) {
                readTable(section, file.getInt(sections + file.getInt(section + 24) * SECTION_BYTES + 16));
            }
        }
    }

    /** Reads a table of symbols, whose names stand from a place of the file on. */
    private void readTable(int section, int names) {
        int start = file.getInt(section + 16);
        int count = file.getInt(section + 20) / SYMBOL_BYTES;
        for (int i = 0; i < count; i++) {
            int symbol = start + i * SYMBOL_BYTES;
            int type = file.get(symbol + 12) & 15;
            String name = name(names + file.getInt(symbol));
            boolean isLabel = type == NO_TYPE && name.matches("[A-Za-z_][A-Za-z_0-9]*");
            if ((type == FUNCTION || isLabel) && isCode(file.getShort(symbol + 14))) {
                functions.merge(file.getInt(symbol + 4), name, (first, second) -> type == FUNCTION ? second : first);
            }
        }
    }

    /** Whether a section of a number is code. Numbers of 0 and below stand for none. */
    private boolean isCode(int section) {
        return section > 0 && (file.getInt(file.getInt(SECTION_OFFSET) + section * SECTION_BYTES + 8) & EXECUTABLE) != 0;
    }

    private String name(int place) {
        int end = place;
        while (file.get(end) != 0) {
            end++;
        }
        return new String(file.array(), place, end - place, StandardCharsets.UTF_8);
    }
}
