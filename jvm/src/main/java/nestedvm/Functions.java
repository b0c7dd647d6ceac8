package nestedvm;

import java.nio.charset.StandardCharsets;
import java.util.Locale;
import java.util.Map;
import java.util.TreeMap;

/** The functions of a program by their addresses, as the file NAME.symbols beside its classes tells them, in lines as {@code 00400170 main}. */
final class Functions {
    /** The most bytes of such a file that are read. */
    private static final int MOST_BYTES = 16_777_216;

    private final TreeMap<Integer, String> names = new TreeMap<>(Integer::compareUnsigned);

    /** The functions that a file tells, none where it is null. Lines of another form are passed over. */
    Functions(byte[] file) {
        if (file == null || file.length > MOST_BYTES) {
            return;
        }
        for (String line : new String(file, StandardCharsets.UTF_8).split("\\R")) {
            if (line.matches("[0-9A-F]{8} \\S{1,255}")) {
                names.put(Integer.parseUnsignedInt(line.substring(0, 8), 16), line.substring(9));
            }
        }
    }

    /** The function in which an address is, as {@code main+1C}, or null. */
    String at(int address) {
        Map.Entry<Integer, String> below = names.floorEntry(address);
        if (below == null) {
            return null;
        }
        int offset = address - below.getKey();
        return below.getValue() + (offset == 0 ? "" : "+" + Integer.toHexString(offset).toUpperCase(Locale.ROOT));
    }
}
