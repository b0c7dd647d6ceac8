package nestedvm;

import java.nio.ByteOrder;

/**
 * The memory of a resident program as Java sees it: values at addresses, in the program's order of bytes. What is not there, or may not be written,
 * is refused by an {@link IllegalArgumentException}, and then nothing is written. It remembers whether Java has written.
 */
final class ResidentMemory {
    private static final int HALF_BYTES = 2;
    private static final int WORD_BYTES = 4;
    private static final int PAIR_BYTES = 8;

    private final String name;
    private final GuestMemory memory;
    private final ByteOrder order;
    private final boolean isLittle;

    /** Whether Java has written, or has called functions that may, since this was last set to false. */
    private boolean isChanged;

    ResidentMemory(String name, GuestMemory memory, ByteOrder order) {
        this.name = name;
        this.memory = memory;
        this.order = order;
        this.isLittle = order == ByteOrder.LITTLE_ENDIAN;
    }

    ByteOrder order() {
        return order;
    }

    boolean isChanged() {
        return isChanged;
    }

    void setChanged(boolean isChanged) {
        this.isChanged = isChanged;
    }

    byte oneByte(int address) {
        return (byte) (number(address, 1));
    }

    short half(int address) {
        int value = number(address, HALF_BYTES);
        return (short) (isLittle ? Short.reverseBytes((short) value) : value);
    }

    int word(int address) {
        int value = number(address, WORD_BYTES);
        return isLittle ? Integer.reverseBytes(value) : value;
    }

    /** Two words, as a {@code long long} stands. */
    long pair(int address) {
        return pairOf(word(address), word(address + WORD_BYTES));
    }

    /** The number that two words are, of which the first stands first. */
    long pairOf(int first, int second) {
        return isLittle ? (long) second << 32 | first & 0xFFFFFFFFL : (long) first << 32 | second & 0xFFFFFFFFL;
    }

    /** Of the two words that a number is, that which stands first. */
    int firstOf(long pair) {
        return (int) (isLittle ? pair : pair >>> 32);
    }

    /** Of the two words that a number is, that which stands second. */
    int secondOf(long pair) {
        return (int) (isLittle ? pair >>> 32 : pair);
    }

    void setByte(int address, byte value) {
        setNumber(address, 1, value);
    }

    void setHalf(int address, short value) {
        setNumber(address, HALF_BYTES, isLittle ? Short.reverseBytes(value) : value);
    }

    void setWord(int address, int value) {
        setNumber(address, WORD_BYTES, isLittle ? Integer.reverseBytes(value) : value);
    }

    void setPair(int address, long value) {
        needRoom(address, PAIR_BYTES);
        setWord(address, firstOf(value));
        setWord(address + WORD_BYTES, secondOf(value));
    }

    byte[] read(int address, int count) {
        try {
            return memory.bytes(address, count);
        } catch (Refusal refusal) {
            throw notThere(address, count);
        }
    }

    void read(int address, byte[] into, int place, int count) {
        try {
            memory.needBytes(address, count);
        } catch (Refusal refusal) {
            throw notThere(address, count);
        }
        memory.copy(address, into, place, count);
    }

    void write(int address, byte[] bytes, int place, int count) {
        needRoom(address, count);
        isChanged = true;
        memory.put(address, bytes, place, count);
    }

    /** The bytes from an address up to the first zero. */
    byte[] bytesToZero(int address) {
        try {
            return memory.bytesToZero(address);
        } catch (Refusal refusal) {
            if (refusal.error() == Refusal.TOO_LARGE) {
                throw new IllegalArgumentException(
                    name + " has no zero within " + GuestMemory.LONGEST_TEXT + " bytes from " + Addresses.text(address) + " on, where a text was to be");
            }
            throw notThere(address, 1);
        }
    }

    /** The name of a function that the program tells. */
    String functionName(int address) {
        try {
            return memory.name(address);
        } catch (Refusal refusal) {
            throw new IllegalArgumentException(name + " tells a function whose name at " + Addresses.text(address) + " is not 1 to 255 bytes");
        }
    }

    private void needRoom(int address, int count) {
        try {
            memory.needRoom(address, count);
        } catch (Refusal refusal) {
            throw notThere(address, count);
        }
    }

    /** One to four bytes, the first of which is the most significant. */
    private int number(int address, int count) {
        try {
            return memory.number(address, count);
        } catch (Refusal refusal) {
            throw notThere(address, count);
        }
    }

    private void setNumber(int address, int count, int value) {
        isChanged = true;
        try {
            memory.setNumber(address, count, value);
        } catch (Refusal refusal) {
            throw notThere(address, count);
        }
    }

    private IllegalArgumentException notThere(int address, int count) {
        return new IllegalArgumentException(name + " does not have " + count + " such bytes from " + Addresses.text(address) + " on");
    }
}
