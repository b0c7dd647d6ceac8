package nestedvm;

import java.io.ByteArrayOutputStream;
import java.io.IOException;
import java.io.InputStream;

/** Reads streams to their end. */
final class WholeStream {
    private static final int PIECE_BYTES = 65_536;

    private WholeStream() {
    }

    /** All bytes that are left of a stream, which stays open. */
    static byte[] of(InputStream stream) throws IOException {
        return of(stream, Integer.MAX_VALUE);
    }

    /** The same, unless there are more than so many. */
    static byte[] of(InputStream stream, int most) throws IOException {
        ByteArrayOutputStream bytes = new ByteArrayOutputStream();
        byte[] piece = new byte[PIECE_BYTES];
        int count = stream.read(piece);
        while (count >= 0) {
            bytes.write(piece, 0, count);
            if (bytes.size() > most) {
                throw new IOException("the file is too long");
            }
            count = stream.read(piece);
        }
        return bytes.toByteArray();
    }
}
