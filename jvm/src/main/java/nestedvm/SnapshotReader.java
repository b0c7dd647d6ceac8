package nestedvm;

import java.nio.BufferUnderflowException;
import java.nio.ByteBuffer;
import java.nio.charset.StandardCharsets;
import java.util.Arrays;

/** Reads the bytes of a snapshot, which may be anything. What it gives is no larger than what they have; what is wrong is refused. */
final class SnapshotReader {
    private final ByteBuffer in;

    SnapshotReader(byte[] bytes) {
        in = ByteBuffer.wrap(bytes);
    }

    /** Refuses the snapshot. */
    static IllegalArgumentException refused(String reason) {
        return new IllegalArgumentException("this is no snapshot: " + reason);
    }

    static void need(boolean isLawful, String reason) {
        if (!isLawful) {
            throw refused(reason);
        }
    }

    private static IllegalArgumentException tooShort() {
        return refused("it ends too early");
    }

    void needStart() {
        byte[] start = raw(SnapshotWriter.START.length);
        need(Arrays.equals(start, SnapshotWriter.START), "it begins otherwise, or is of a later version");
    }

    void needEnd() {
        need(!in.hasRemaining(), "there are bytes behind it");
    }

    int oneByte() {
        try {
            return in.get() & 0xFF;
        } catch (BufferUnderflowException end) {
            throw tooShort();
        }
    }

    int number() {
        try {
            return in.getInt();
        } catch (BufferUnderflowException end) {
            throw tooShort();
        }
    }

    /** A number of 0 to a most. */
    int numberUpTo(int most, String what) {
        int number = number();
        need(number >= 0 && number <= most, what + " are 0 to " + most + ", and not " + number);
        return number;
    }

    long longNumber() {
        try {
            return in.getLong();
        } catch (BufferUnderflowException end) {
            throw tooShort();
        }
    }

    int[] ints(int count) {
        if (Integer.BYTES * count > in.remaining()) {
            throw tooShort();
        }
        int[] ints = new int[count];
        in.asIntBuffer().get(ints);
        in.position(in.position() + Integer.BYTES * count);
        return ints;
    }

    /** So many bytes. */
    byte[] raw(int count) {
        if (count > in.remaining()) {
            throw tooShort();
        }
        byte[] bytes = new byte[count];
        in.get(bytes);
        return bytes;
    }

    /** Bytes behind their count, which is at most so many. */
    byte[] bytes(int most, String what) {
        return raw(numberUpTo(most, what));
    }

    /** A guest's name: so many bytes at most, none of them 0. */
    String name(int most) {
        String name = new String(bytes(most, "the bytes of a name"), StandardCharsets.ISO_8859_1);
        need(name.indexOf(0) < 0, "a name has a zero");
        return name;
    }
}
