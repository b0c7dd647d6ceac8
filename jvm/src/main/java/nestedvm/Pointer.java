package nestedvm;

import java.nio.ByteBuffer;
import java.nio.ByteOrder;
import java.nio.charset.Charset;
import java.nio.charset.StandardCharsets;
import java.util.Objects;

/**
 * A place in the memory of a resident program, as a pointer of C has one. Values stand at offsets in bytes from there. {@link Library#pointer} makes one
 * of an address; a pointer of C that is 0 is null in Java.
 *
 * <p>Numbers are in the program's order of bytes, unless {@link #order(ByteOrder)} says otherwise. A pointer that {@link #slice(int, int)} or
 * {@link Library#allocateMemory} has made reaches so many bytes, and no further. Every method that reads or writes throws an
 * {@link IllegalArgumentException} where a byte is not there or may not be written, an {@link IndexOutOfBoundsException} where it is out of this
 * reach, and an {@link IllegalStateException} where the library is closed; nothing is written then.
 */
public class Pointer {
    private static final int UNBOUNDED = -1;

    private final Library library;
    private final int address;
    private final ByteOrder order;

    /** The bytes that it reaches, or UNBOUNDED. */
    private final int size;

    /** A pointer without bounds. */
    Pointer(Library library, int address) {
        this(library, address, library.order(), UNBOUNDED);
    }

    Pointer(Library library, int address, ByteOrder order, int size) {
        this.library = library;
        this.address = address;
        this.order = order;
        this.size = size;
    }

    /**
     * The library of the program.
     *
     * @return the library
     */
    public final Library library() {
        return library;
    }

    /**
     * The address.
     *
     * @return 32 bits without a sign
     */
    public final int address() {
        return address;
    }

    /**
     * The order in which the bytes of numbers stand.
     *
     * @return at first that of the program
     */
    public final ByteOrder order() {
        return order;
    }

    /**
     * The same place, with numbers in an order of bytes.
     *
     * @param other the order
     * @return the pointer
     */
    public final Pointer order(ByteOrder other) {
        return new Pointer(library, address, Objects.requireNonNull(other), size);
    }

    /**
     * How many bytes it reaches.
     *
     * @return the bytes, or -1 where it has no bounds
     */
    public final int size() {
        return size;
    }

    /**
     * A place behind this one.
     *
     * @param offset how many bytes behind
     * @return the pointer, which has no bounds where this one has none, and ends where it ends
     * @throws IndexOutOfBoundsException where this one has bounds and does not reach as far
     */
    public final Pointer slice(int offset) {
        return new Pointer(library, place(offset, 0), order, size == UNBOUNDED ? UNBOUNDED : size - offset);
    }

    /**
     * So many bytes from a place behind this one on.
     *
     * @param offset how many bytes behind
     * @param bytes how many bytes the pointer reaches
     * @return the pointer
     * @throws IndexOutOfBoundsException where this one has bounds and does not reach as far, or the number is negative
     */
    public final Pointer slice(int offset, int bytes) {
        if (bytes < 0) {
            throw new IndexOutOfBoundsException("a slice has at least 0 bytes, and not " + bytes);
        }
        return new Pointer(library, place(offset, bytes), order, bytes);
    }

    /** The address of some bytes, which are to be within bounds. */
    private int place(int offset, int count) {
        if (size != UNBOUNDED && (offset < 0 || count > size - offset)) {
            throw new IndexOutOfBoundsException(count + " bytes from " + offset + " on are not within the " + size + " bytes of the pointer");
        }
        return address + offset;
    }

    private boolean isTurned(ResidentMemory memory) {
        return order != memory.order();
    }

    /**
     * Reads a byte.
     *
     * @param offset where it stands
     * @return the byte
     */
    public final byte getByte(int offset) {
        synchronized (library) {
            return library.memory().oneByte(place(offset, Byte.BYTES));
        }
    }

    /**
     * Reads 16 bits.
     *
     * @param offset where they stand
     * @return the number
     */
    public final short getShort(int offset) {
        synchronized (library) {
            ResidentMemory memory = library.memory();
            short value = memory.half(place(offset, Short.BYTES));
            return isTurned(memory) ? Short.reverseBytes(value) : value;
        }
    }

    /**
     * Reads 32 bits.
     *
     * @param offset where they stand
     * @return the number
     */
    public final int getInt(int offset) {
        synchronized (library) {
            ResidentMemory memory = library.memory();
            int value = memory.word(place(offset, Integer.BYTES));
            return isTurned(memory) ? Integer.reverseBytes(value) : value;
        }
    }

    /**
     * Reads 64 bits.
     *
     * @param offset where they stand
     * @return the number
     */
    public final long getLong(int offset) {
        synchronized (library) {
            ResidentMemory memory = library.memory();
            long value = memory.pair(place(offset, Long.BYTES));
            return isTurned(memory) ? Long.reverseBytes(value) : value;
        }
    }

    /**
     * Reads a {@code float}.
     *
     * @param offset where it stands
     * @return the number
     */
    public final float getFloat(int offset) {
        return Float.intBitsToFloat(getInt(offset));
    }

    /**
     * Reads a {@code double}.
     *
     * @param offset where it stands
     * @return the number
     */
    public final double getDouble(int offset) {
        return Double.longBitsToDouble(getLong(offset));
    }

    /**
     * Reads a pointer.
     *
     * @param offset where it stands
     * @return the pointer, without bounds; null for 0
     */
    public final Pointer getPointer(int offset) {
        return library.pointer(getInt(offset));
    }

    /**
     * Reads a text in UTF-8, up to the first zero.
     *
     * @param offset where it begins
     * @return the text
     */
    public final String getText(int offset) {
        return getText(offset, StandardCharsets.UTF_8);
    }

    /**
     * Reads a text, up to the first byte that is zero.
     *
     * @param offset where it begins
     * @param charset how its characters are encoded
     * @return the text
     */
    public final String getText(int offset, Charset charset) {
        synchronized (library) {
            byte[] bytes = library.memory().bytesToZero(place(offset, 0));
            place(offset, bytes.length + 1);
            return new String(bytes, charset);
        }
    }

    /**
     * Reads bytes.
     *
     * @param offset where they begin
     * @param count how many they are
     * @return the bytes
     */
    public final byte[] read(int offset, int count) {
        synchronized (library) {
            return library.memory().read(place(offset, count), count);
        }
    }

    /**
     * Reads bytes into a buffer, as many as it has left.
     *
     * @param offset where they begin
     * @param into the buffer, whose position is then its limit
     */
    public final void read(int offset, ByteBuffer into) {
        synchronized (library) {
            int count = into.remaining();
            int from = place(offset, count);
            if (into.hasArray()) {
                library.memory().read(from, into.array(), into.arrayOffset() + into.position(), count);
                into.position(into.limit());
            } else {
                into.put(library.memory().read(from, count));
            }
        }
    }

    /**
     * Writes a byte.
     *
     * @param offset where it goes
     * @param value the byte
     */
    public final void setByte(int offset, byte value) {
        synchronized (library) {
            library.memory().setByte(place(offset, Byte.BYTES), value);
        }
    }

    /**
     * Writes 16 bits.
     *
     * @param offset where they go
     * @param value the number
     */
    public final void setShort(int offset, short value) {
        synchronized (library) {
            ResidentMemory memory = library.memory();
            memory.setHalf(place(offset, Short.BYTES), isTurned(memory) ? Short.reverseBytes(value) : value);
        }
    }

    /**
     * Writes 32 bits.
     *
     * @param offset where they go
     * @param value the number
     */
    public final void setInt(int offset, int value) {
        synchronized (library) {
            ResidentMemory memory = library.memory();
            memory.setWord(place(offset, Integer.BYTES), isTurned(memory) ? Integer.reverseBytes(value) : value);
        }
    }

    /**
     * Writes 64 bits.
     *
     * @param offset where they go
     * @param value the number
     */
    public final void setLong(int offset, long value) {
        synchronized (library) {
            ResidentMemory memory = library.memory();
            memory.setPair(place(offset, Long.BYTES), isTurned(memory) ? Long.reverseBytes(value) : value);
        }
    }

    /**
     * Writes a {@code float}.
     *
     * @param offset where it goes
     * @param value the number
     */
    public final void setFloat(int offset, float value) {
        setInt(offset, Float.floatToRawIntBits(value));
    }

    /**
     * Writes a {@code double}.
     *
     * @param offset where it goes
     * @param value the number
     */
    public final void setDouble(int offset, double value) {
        setLong(offset, Double.doubleToRawLongBits(value));
    }

    /**
     * Writes a pointer.
     *
     * @param offset where it goes
     * @param value the pointer, null for 0
     */
    public final void setPointer(int offset, Pointer value) {
        setInt(offset, value == null ? 0 : value.address);
    }

    /**
     * Writes a text in UTF-8, and a zero behind it.
     *
     * @param offset where it goes
     * @param text the text
     * @throws IllegalArgumentException also where the text has a character 0
     */
    public final void setText(int offset, String text) {
        setText(offset, text, StandardCharsets.UTF_8);
    }

    /**
     * Writes a text, and a zero byte behind it.
     *
     * @param offset where it goes
     * @param text the text
     * @param charset how its characters are encoded, in which no other character than 0 has a byte 0
     * @throws IllegalArgumentException also where the text has a character 0
     */
    public final void setText(int offset, String text, Charset charset) {
        write(offset, CText.bytes(text, charset));
    }

    /**
     * Writes bytes.
     *
     * @param offset where they go
     * @param bytes the bytes
     */
    public final void write(int offset, byte[] bytes) {
        synchronized (library) {
            library.memory().write(place(offset, bytes.length), bytes, 0, bytes.length);
        }
    }

    /**
     * Writes the bytes that a buffer has left.
     *
     * @param offset where they go
     * @param from the buffer, whose position is then its limit
     */
    public final void write(int offset, ByteBuffer from) {
        synchronized (library) {
            int count = from.remaining();
            int to = place(offset, count);
            if (from.hasArray()) {
                library.memory().write(to, from.array(), from.arrayOffset() + from.position(), count);
                from.position(from.limit());
            } else {
                byte[] bytes = new byte[count];
                from.get(bytes);
                library.memory().write(to, bytes, 0, count);
            }
        }
    }

    /** Whether another pointer has the same address in the same library. */
    @Override
    public final boolean equals(Object other) {
        return other instanceof Pointer && ((Pointer) other).address == address && ((Pointer) other).library == library;
    }

    @Override
    public final int hashCode() {
        return address;
    }

    @Override
    public final String toString() {
        return Addresses.text(address);
    }
}
