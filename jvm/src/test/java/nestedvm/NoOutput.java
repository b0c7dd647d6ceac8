package nestedvm;

import java.io.OutputStream;

/** Takes everything, and keeps nothing. */
final class NoOutput extends OutputStream {
    @Override
    public void write(int value) {
    }

    @Override
    public void write(byte[] bytes, int place, int count) {
    }
}
