package service;

import java.io.ByteArrayOutputStream;
import java.io.IOException;
import java.io.OutputStream;

/** Gathers what a guest writes, up to a limit. Beyond it a write fails, which ends the guest. */
final class LimitedOutput extends OutputStream {
    private final ByteArrayOutputStream gathered = new ByteArrayOutputStream();
    private final int most;

    /** Takes at most so many bytes. */
    LimitedOutput(int most) {
        this.most = most;
    }

    @Override
    public void write(int one) throws IOException {
        write(new byte[] {(byte) one}, 0, 1);
    }

    @Override
    public void write(byte[] bytes, int start, int count) throws IOException {
        if (count > most - gathered.size()) {
            throw new IOException("more than " + most + " bytes of output");
        }
        gathered.write(bytes, start, count);
    }

    /** What was written so far. */
    byte[] bytes() {
        return gathered.toByteArray();
    }
}
