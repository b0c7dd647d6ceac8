package nestedvm;

import java.io.InputStream;

/** Some bytes, at whose end the thread is interrupted. */
final class InterruptingInput extends InputStream {
    private final byte[] bytes;
    private int place;

    InterruptingInput(String text) {
        bytes = Texts.bytes(text);
    }

    @Override
    public int read() {
        if (place == bytes.length) {
            Thread.currentThread().interrupt();
            return -1;
        }
        return bytes[place++];
    }

    @Override
    public int read(byte[] into, int at, int count) {
        int value = read();
        if (value < 0) {
            return -1;
        }
        into[at] = (byte) value;
        return 1;
    }
}
