package nestedvm;

import java.io.ByteArrayOutputStream;

/** A host with the contract of docs/HOST.md, for one run at a time. It has the console alone, and of the calls those that need no file. */
public final class Host {
    private static byte[] input;
    private static int place;
    private static ByteArrayOutputStream output;
    private static ByteArrayOutputStream errors;

    private Host() {
    }

    /** The end of a run, with how it ended. */
    public static final class End extends Error {
        private static final long serialVersionUID = 1;

        End(String how) {
            super(how, null, false, false);
        }
    }

    /** Begins a run with this input. */
    public static void begin(byte[] bytes) {
        input = bytes;
        place = 0;
        output = new ByteArrayOutputStream();
        errors = new ByteArrayOutputStream();
    }

    /** What the run has written. */
    public static byte[] output() {
        return output.toByteArray();
    }

    /** What it has written to error output. */
    public static byte[] errors() {
        return errors.toByteArray();
    }

    public static int call(int[][] readable, int[][] writable, int number, int a0, int a1, int a2, int a3) {
        switch (number) {
            case 1:
                throw new End("exit " + (a0 & 255));
            case 4:
                return read(writable, a0, a1, a2);
            case 5:
                return write(readable, writable, a0, a1, a2);
            case 8:
                return status(writable, a0, a1);
            case 12:
                return 1;
            case 15:
                return isConsole(a0) ? 1 : -9;
            default:
                return -88;
        }
    }

    public static void fault(int kind, int pc, int value) {
        throw new End(String.format("fault %d pc %08X value %08X", kind & 0xFFFFFFFFL, pc, value));
    }

    private static boolean isConsole(int descriptor) {
        return descriptor >= 0 && descriptor <= 2;
    }

    private static int read(int[][] writable, int descriptor, int address, int size) {
        if (descriptor != 0) {
            return -9;
        }
        if (size <= 0) {
            return size == 0 ? 0 : -22;
        }
        if (!isThere(null, writable, address, size)) {
            return -14;
        }
        int count = 0;
        while (count < size && place < input.length) {
            byte next = input[place++];
            put(writable, address + count++, next);
            if (next == '\n') {
                break;
            }
        }
        return count;
    }

    private static int write(int[][] readable, int[][] writable, int descriptor, int address, int size) {
        if (descriptor != 1 && descriptor != 2) {
            return -9;
        }
        if (size <= 0) {
            return size == 0 ? 0 : -22;
        }
        if (!isThere(readable, writable, address, size)) {
            return -14;
        }
        for (int i = 0; i < size; i++) {
            int at = address + i;
            int[][] table = has(readable, at) ? readable : writable;
            (descriptor == 1 ? output : errors).write(table[at >>> 12][(at >>> 2) & 1023] >>> (24 - 8 * (at & 3)));
        }
        return size;
    }

    private static int status(int[][] writable, int descriptor, int address) {
        if (!isConsole(descriptor)) {
            return -9;
        }
        if (!isThere(null, writable, address, 16)) {
            return -14;
        }
        byte[] words = {0, 0, 0, 2, 0, 0, 0, 0, 0, 0, 0, 0, 0, 0, 16, 0};
        for (int i = 0; i < 16; i++) {
            put(writable, address + i, words[i]);
        }
        return 0;
    }

    /** Whether one of two tables has each byte of a range. */
    private static boolean isThere(int[][] first, int[][] second, int address, int size) {
        long start = address & 0xFFFFFFFFL;
        for (long at = start; at < start + size; at++) {
            if (at > 0xFFFFFFFFL || !has(first, (int) at) && !has(second, (int) at)) {
                return false;
            }
        }
        return true;
    }

    private static boolean has(int[][] table, int at) {
        int page = at >>> 12;
        return table != null && page < table.length && table[page] != null && ((at >>> 2) & 1023) < table[page].length;
    }

    private static void put(int[][] table, int at, byte value) {
        int shift = 24 - 8 * (at & 3);
        int[] page = table[at >>> 12];
        int index = (at >>> 2) & 1023;
        page[index] = page[index] & ~(255 << shift) | (value & 255) << shift;
    }
}
