package nestedvm;

import java.io.IOException;
import java.io.InputStream;

/** Some bytes, and then an exception. */
final class BrokenInput extends InputStream {
    private final byte[] bytes;
    private int place;

    BrokenInput(String text) {
        bytes = Texts.bytes(text);
    }

    @Override
    public int read() throws IOException {
        if (place == bytes.length) {
            throw new IOException("broken input");
        }
        return bytes[place++];
    }

    @Override
    public int read(byte[] into, int at, int count) throws IOException {
        into[at] = (byte) read();
        return 1;
    }
}
