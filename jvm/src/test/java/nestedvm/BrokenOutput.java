package nestedvm;

import java.io.OutputStream;

/** Takes nothing, and throws what is no IOException. */
final class BrokenOutput extends OutputStream {
    @Override
    public void write(int value) {
        throw new UnsupportedOperationException("broken output");
    }
}
