package nestedvm;

import java.util.Arrays;

/** A file whose bytes are in memory. */
final class MemoryFile extends GuestFile {
    /** The most elements of an array, as common virtual machines have it. */
    private static final int LONGEST_ARRAY = Integer.MAX_VALUE - 8;

    private int length;

    /** The bytes of the file, and zeros behind them. */
    private byte[] bytes;

    /** Whether the array is another's, so that it is copied before it is changed. */
    private boolean isShared;

    /** A file that begins with these bytes, which are another's and stay as they are. */
    MemoryFile(String name, byte[] bytes) {
        super(name);
        this.bytes = bytes;
        this.length = bytes.length;
        this.isShared = true;
    }

    @Override
    int length() {
        return length;
    }

    @Override
    int diskBlocksFor(int size) {
        return blocksFor(size);
    }

    @Override
    void resize(int size) {
        if (size > bytes.length) {
            copyBytes(Math.max(size, (int) Math.min(2L * bytes.length, LONGEST_ARRAY)));
        } else if (size < bytes.length / 4 || size < length && isShared) {
            copyBytes(size);
        } else if (size < length) {
            Arrays.fill(bytes, size, length, (byte) 0);
        }
        length = size;
    }

    private void copyBytes(int size) {
        bytes = Arrays.copyOf(bytes, size);
        isShared = false;
    }

    @Override
    void write(int place, GuestMemory memory, int address, int count) {
        if (isShared) {
            copyBytes(bytes.length);
        }
        memory.copy(address, bytes, place, count);
    }

    @Override
    void read(int place, GuestMemory memory, int address, int count) {
        memory.put(address, bytes, place, count);
    }

    /** A copy of the bytes of the file. */
    byte[] content() {
        return Arrays.copyOf(bytes, length);
    }

    /** Gives up the room behind the bytes of the file, which does not change any longer. */
    void leave() {
        if (bytes.length > length) {
            copyBytes(length);
        }
    }

    /** The bytes of a file that does not change any longer, in an array that is nobody else's: the same one each time. */
    byte[] ownContent() {
        if (isShared) {
            copyBytes(length);
        }
        return bytes;
    }
}
