package nestedvm;

import java.nio.ByteBuffer;
import java.nio.charset.StandardCharsets;

/** Writes the bytes of a snapshot, or counts them. */
final class SnapshotWriter {
    /** With what they begin: the last byte is the version. */
    static final byte[] START = {'n', 'e', 's', 't', 'e', 'd', 0, 1};

    /** The most bytes of an array, as common virtual machines have it. */
    private static final int MOST_BYTES = Integer.MAX_VALUE - 8;

    /** The bytes, or null where they are counted. */
    private final byte[] out;

    private long count;

    private SnapshotWriter(byte[] out) {
        this.out = out;
    }

    /** One that counts. */
    static SnapshotWriter counting() {
        return new SnapshotWriter(null);
    }

    /** One for as many bytes as another one has counted. */
    static SnapshotWriter of(SnapshotWriter counting) {
        if (counting.count > MOST_BYTES) {
            throw new IllegalStateException("a snapshot has at most " + MOST_BYTES + " bytes, and this one " + counting.count);
        }
        return new SnapshotWriter(new byte[(int) counting.count]);
    }

    void putByte(int value) {
        putRaw(new byte[] {(byte) value});
    }

    void putInt(int value) {
        putRaw(ByteBuffer.allocate(Integer.BYTES).putInt(value).array());
    }

    void putLong(long value) {
        putRaw(ByteBuffer.allocate(Long.BYTES).putLong(value).array());
    }

    void putInts(int[] values) {
        if (out != null) {
            ByteBuffer.wrap(out, (int) count, Integer.BYTES * values.length).asIntBuffer().put(values);
        }
        count += (long) Integer.BYTES * values.length;
    }

    /** Bytes without their count. */
    void putRaw(byte[] bytes) {
        if (out != null) {
            System.arraycopy(bytes, 0, out, (int) count, bytes.length);
        }
        count += bytes.length;
    }

    /** Bytes behind their count. */
    void putBytes(byte[] bytes) {
        putInt(bytes.length);
        putRaw(bytes);
    }

    /** A guest's name, which has a character for each of its bytes. */
    void putName(String name) {
        putBytes(name.getBytes(StandardCharsets.ISO_8859_1));
    }

    /** All bytes, once as many were written as there is room for. */
    byte[] bytes() {
        return out;
    }
}
