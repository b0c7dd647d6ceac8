package nestedvm;

import java.io.IOException;
import java.io.InputStream;
import java.util.Arrays;

/** Input that begins with bytes, and goes on with a stream where there is one. */
final class GivenInput extends InputStream {
    private final byte[] bytes;
    private final InputStream stream;
    private int place;

    /** These bytes, which stay as they are, and behind them a stream, or none where it is null. */
    GivenInput(byte[] bytes, InputStream stream) {
        this.bytes = bytes;
        this.stream = stream;
    }

    @Override
    public int read() throws IOException {
        if (place < bytes.length) {
            return bytes[place++] & 0xFF;
        }
        return stream == null ? -1 : stream.read();
    }

    @Override
    public int read(byte[] into, int at, int count) throws IOException {
        if (place == bytes.length) {
            return stream == null ? -1 : stream.read(into, at, count);
        }
        int given = Math.min(count, bytes.length - place);
        System.arraycopy(bytes, place, into, at, given);
        place += given;
        return given;
    }

    /** A copy of the bytes that were not read. */
    byte[] rest() {
        return Arrays.copyOfRange(bytes, place, bytes.length);
    }
}
