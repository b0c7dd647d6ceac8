package nestedvm;

import java.io.IOException;
import java.io.OutputStream;
import java.util.Arrays;

/** Output that is kept until it is taken, at most so many bytes at a time. */
final class GatheredOutput extends OutputStream {
    private static final byte[] NOTHING = {};

    private final int most;
    private byte[] bytes;
    private int length;

    /** None is gathered yet. */
    GatheredOutput(int most) {
        this(most, NOTHING);
    }

    /** Bytes are gathered already, of which a copy is made. */
    GatheredOutput(int most, byte[] before) {
        this.most = most;
        this.bytes = before.clone();
        this.length = before.length;
    }

    @Override
    public void write(int value) throws IOException {
        write(new byte[] {(byte) value}, 0, 1);
    }

    @Override
    public void write(byte[] from, int place, int count) throws IOException {
        long needed = (long) length + count;
        if (needed > most) {
            throw new IOException("more than " + most + " bytes of output are not gathered");
        }
        if (needed > bytes.length) {
            bytes = Arrays.copyOf(bytes, (int) Math.min(Math.max(needed, 2L * bytes.length), most));
        }
        System.arraycopy(from, place, bytes, length, count);
        length = (int) needed;
    }

    /** Takes what was gathered since the last time. */
    byte[] take() {
        byte[] taken = bytes.length == length ? bytes : Arrays.copyOf(bytes, length);
        bytes = NOTHING;
        length = 0;
        return taken;
    }

    /** A copy of the last bytes that were gathered, at most so many. */
    byte[] last(int count) {
        return Arrays.copyOfRange(bytes, Math.max(length - count, 0), length);
    }
}
