package nestedvm;

import java.nio.ByteBuffer;
import java.nio.charset.Charset;
import java.nio.charset.StandardCharsets;

/**
 * The memory of a guest as a call sees it, through two arrays of pages. What the first one has can be read; what the second one has
 * may be written, and is read where the first one has none. A page may be shorter than 1,024 words: its bytes are there from its
 * start up to some place. An address counts without a sign, and nothing stands past FFFFFFFF.
 */
final class GuestMemory {
    private static final long END = 1L << 32;
    private static final int WORD_BYTES = 4;
    private static final int PAGE_BYTES = 4096;
    private static final int PAGE_MASK = PAGE_BYTES - 1;
    private static final int WORD_MASK = 1023;

    /** The most bytes of a text that are read up to its zero. */
    static final int LONGEST_TEXT = 16_777_216;

    /** The bytes of a path that are looked at. */
    private static final int PATH_BYTES = 256;

    private final int[][] readable;
    private final int[][] writable;

    GuestMemory(int[][] readable, int[][] writable) {
        this.readable = readable;
        this.writable = writable;
    }

    /** Refuses the call unless so many bytes from an address on can be read. */
    void needBytes(int address, int count) throws Refusal {
        need(address, count, false);
    }

    /** Refuses the call unless so many bytes from an address on may be written. */
    void needRoom(int address, int count) throws Refusal {
        need(address, count, true);
    }

    /** Of each page only the last byte of the range is looked at, since the others stand before it. */
    private void need(int address, int count, boolean toWrite) throws Refusal {
        if (count > bytesFrom(address)) {
            throw new Refusal(Refusal.BAD_ADDRESS);
        }
        int done = 0;
        while (done < count) {
            int bytesOfPage = PAGE_BYTES - ((address + done) & PAGE_MASK);
            done += Math.min(bytesOfPage, count - done);
            if (!isThere(address + done - 1, toWrite)) {
                throw new Refusal(Refusal.BAD_ADDRESS);
            }
        }
    }

    /** How many addresses there are from one on. */
    private static long bytesFrom(int address) {
        return END - Integer.toUnsignedLong(address);
    }

    private boolean isThere(int address, boolean toWrite) {
        return pageAt(writable, address) != null || !toWrite && pageAt(readable, address) != null;
    }

    /** The page that has the word at an address, or null. */
    private static int[] pageAt(int[][] pages, int address) {
        int number = address >>> 12;
        if (pages == null || number >= pages.length) {
            return null;
        }
        int[] page = pages[number];
        return page != null && wordAt(address) < page.length ? page : null;
    }

    /** The page from which the word at an address is read, or null. */
    private int[] readablePageAt(int address) {
        int[] page = pageAt(readable, address);
        return page == null ? pageAt(writable, address) : page;
    }

    private static int wordAt(int address) {
        return (address >>> 2) & WORD_MASK;
    }

    /** How far the byte at an address stands above the lowest one of its word: lane 0 is the most significant. */
    private static int shiftAt(int address) {
        return 24 - 8 * (address & 3);
    }

    /** The byte at an address, or -1 where it cannot be read. */
    private int byteAt(int address) {
        int[] page = readablePageAt(address);
        return page == null ? -1 : (page[wordAt(address)] >>> shiftAt(address)) & 0xFF;
    }

    /** Copies bytes that can be read, from an address on, to a place of an array. */
    void copy(int address, byte[] into, int place, int count) {
        int done = 0;
        while (done < count) {
            int part = partOfPage(address + done, count - done);
            copyFrom(readablePageAt(address + done), address + done, into, place + done, part);
            done += part;
        }
    }

    /** How many of some bytes are in the page in which they begin. */
    private static int partOfPage(int address, int count) {
        return Math.min(count, PAGE_BYTES - (address & PAGE_MASK));
    }

    /** Copies bytes of one page: whole words at once, and what stands before and behind them one by one. */
    private static void copyFrom(int[] page, int address, byte[] into, int place, int count) {
        int done = 0;
        while (done < count) {
            int words = (address + done & 3) == 0 ? (count - done) / WORD_BYTES : 0;
            if (words > 0) {
                ByteBuffer.wrap(into, place + done, words * WORD_BYTES).asIntBuffer().put(page, wordAt(address + done), words);
                done += words * WORD_BYTES;
            } else {
                into[place + done] = (byte) (page[wordAt(address + done)] >>> shiftAt(address + done));
                done++;
            }
        }
    }

    /** So many bytes from an address on, or the call is refused. */
    byte[] bytes(int address, int count) throws Refusal {
        if (count < 0) {
            throw new Refusal(Refusal.INVALID);
        }
        needBytes(address, count);
        byte[] bytes = new byte[count];
        copy(address, bytes, 0, count);
        return bytes;
    }

    /** The bytes from an address up to the first zero, or the call is refused. */
    byte[] bytesToZero(int address) throws Refusal {
        int length = 0;
        int value = byteAt(address);
        while (value > 0) {
            if (length == LONGEST_TEXT) {
                throw new Refusal(Refusal.TOO_LARGE);
            }
            length++;
            value = length < bytesFrom(address) ? byteAt(address + length) : -1;
        }
        if (value < 0) {
            throw new Refusal(Refusal.BAD_ADDRESS);
        }
        byte[] bytes = new byte[length];
        copy(address, bytes, 0, length);
        return bytes;
    }

    /** The number that one, two or four bytes are, of which the first one counts most; or the call is refused. */
    int number(int address, int count) throws Refusal {
        if (count == WORD_BYTES && (address & 3) == 0) {
            int[] page = readablePageAt(address);
            if (page == null) {
                throw new Refusal(Refusal.BAD_ADDRESS);
            }
            return page[wordAt(address)];
        }
        needBytes(address, count);
        int number = 0;
        for (int i = 0; i < count; i++) {
            number = number << 8 | byteAt(address + i);
        }
        return number;
    }

    /** Puts such a number where it may be written, or the call is refused. */
    void setNumber(int address, int count, int number) throws Refusal {
        needRoom(address, count);
        if (count == WORD_BYTES && (address & 3) == 0) {
            pageAt(writable, address)[wordAt(address)] = number;
            return;
        }
        for (int i = 0; i < count; i++) {
            put(address + i, number >>> 8 * (count - 1 - i));
        }
    }

    /** Puts a byte where it may be written. */
    void put(int address, int value) {
        int[] page = pageAt(writable, address);
        int shift = shiftAt(address);
        int others = page[wordAt(address)] & ~(0xFF << shift);
        page[wordAt(address)] = others | ((value & 0xFF) << shift);
    }

    /** Puts bytes from a place of an array on where they may be written, from an address on. */
    void put(int address, byte[] bytes, int place, int count) {
        int done = 0;
        while (done < count) {
            int part = partOfPage(address + done, count - done);
            putInto(pageAt(writable, address + done), address + done, bytes, place + done, part);
            done += part;
        }
    }

    /** Puts bytes into one page: whole words at once, and what stands before and behind them one by one. */
    private void putInto(int[] page, int address, byte[] bytes, int place, int count) {
        int done = 0;
        while (done < count) {
            int words = (address + done & 3) == 0 ? (count - done) / WORD_BYTES : 0;
            if (words > 0) {
                ByteBuffer.wrap(bytes, place + done, words * WORD_BYTES).asIntBuffer().get(page, wordAt(address + done), words);
                done += words * WORD_BYTES;
            } else {
                put(address + done, bytes[place + done]);
                done++;
            }
        }
    }

    /** The path at an address, with a character for each of its bytes; or the call is refused. */
    String path(int address) throws Refusal {
        return shortText(address, StandardCharsets.ISO_8859_1);
    }

    /** The name at an address, of 1 to 255 bytes in UTF-8, or the call is refused. */
    String name(int address) throws Refusal {
        return shortText(address, StandardCharsets.UTF_8);
    }

    private String shortText(int address, Charset charset) throws Refusal {
        byte[] path = new byte[PATH_BYTES];
        int length = copyPath(address, path);
        if (length == 0) {
            throw new Refusal(Refusal.NO_ENTRY);
        }
        return new String(path, 0, length, charset);
    }

    /** Copies the bytes of a path up to the first zero, and tells how many they are; or the call is refused. */
    private int copyPath(int address, byte[] path) throws Refusal {
        for (int length = 0; length < PATH_BYTES; length++) {
            int value = length < bytesFrom(address) ? byteAt(address + length) : -1;
            if (value < 0) {
                throw new Refusal(Refusal.BAD_ADDRESS);
            }
            if (value == 0) {
                return length;
            }
            path[length] = (byte) value;
        }
        throw new Refusal(Refusal.INVALID);
    }
}
