package nestedvm;

import java.io.FileDescriptor;
import java.io.FileInputStream;
import java.io.FileOutputStream;
import java.io.IOException;
import java.io.InputStream;
import java.io.OutputStream;
import java.nio.charset.StandardCharsets;
import java.util.Arrays;

/**
 * The input and the two outputs of a guest, over streams, which it never closes. What a stream throws ends the run.
 *
 * <p>Written bytes are gathered. They go out before input is waited for, before bytes go to the other output, and when
 * {@link #flush} is called, so outside they stand in the order in which they were written.
 */
final class Console {
    /** The most bytes of input that are read ahead. */
    private static final int AHEAD_BYTES = 4096;

    /** The most written bytes that are gathered. */
    private static final int GATHERED_BYTES = 8192;

    private final InputStream input;
    private final OutputStream output;
    private final OutputStream errorOutput;

    private final byte[] ahead = new byte[AHEAD_BYTES];
    private int aheadPlace;
    private int aheadEnd;

    /** The output of the bytes that are gathered. */
    private OutputStream gathering;

    private final byte[] gathered = new byte[GATHERED_BYTES];
    private int gatheredCount;

    /** What an output has thrown. */
    private Exception failure;

    Console(InputStream input, OutputStream output, OutputStream errorOutput) {
        this.input = input;
        this.output = output;
        this.errorOutput = errorOutput;
        this.gathering = output;
    }

    /** The console of the process. */
    static Console ofProcess() {
        return new Console(
            new FileInputStream(FileDescriptor.in), new FileOutputStream(FileDescriptor.out), new FileOutputStream(FileDescriptor.err));
    }

    /** The next byte of input, or -1 at its end. Input is read only where nothing was read ahead, so a line needs no further one. */
    int read() {
        if (aheadPlace == aheadEnd) {
            readAhead();
        }
        return aheadPlace == aheadEnd ? -1 : ahead[aheadPlace++] & 0xFF;
    }

    private void readAhead() {
        flush();
        try {
            aheadPlace = 0;
            aheadEnd = 0;
            aheadEnd = Math.max(input.read(ahead), 0);
        } catch (IOException | RuntimeException thrown) {
            throw new Stopped(Answer.readFault(thrown));
        }
    }

    /** A copy of the bytes that were read ahead. */
    byte[] ahead() {
        return Arrays.copyOfRange(ahead, aheadPlace, aheadEnd);
    }

    /** Writes bytes to an output. */
    synchronized void write(Side side, byte[] bytes) {
        OutputStream stream = side == Side.OUTPUT ? output : errorOutput;
        if (stream != gathering) {
            flush();
            gathering = stream;
        }
        needSound();
        if (gatheredCount + bytes.length > GATHERED_BYTES) {
            flush();
        }
        if (bytes.length > GATHERED_BYTES) {
            send(bytes, bytes.length);
        } else {
            System.arraycopy(bytes, 0, gathered, gatheredCount, bytes.length);
            gatheredCount += bytes.length;
        }
    }

    /** Lets all that was written go out. */
    synchronized void flush() {
        needSound();
        if (gatheredCount > 0) {
            int count = gatheredCount;
            gatheredCount = 0;
            send(gathered, count);
        }
    }

    private void send(byte[] bytes, int count) {
        try {
            gathering.write(bytes, 0, count);
            gathering.flush();
        } catch (IOException | RuntimeException thrown) {
            failure = thrown;
            throw failed();
        }
    }

    /** Forgets that an output has failed, so that what is written from now on is tried again. */
    synchronized void forgetFailure() {
        failure = null;
    }

    /** Once an output has failed nothing more is written: what was gathered then is lost, but for a front part that may have gone out. */
    private void needSound() {
        if (failure != null) {
            throw failed();
        }
    }

    private Stopped failed() {
        return new Stopped(Answer.writeFault(failure));
    }

    /** Writes the line of an answer to error output, last of all; the answer that comes of it. */
    Answer tell(Answer answer) {
        try {
            write(Side.ERROR_OUTPUT, answer.line().getBytes(StandardCharsets.UTF_8));
            flush();
            return answer;
        } catch (Stopped stopped) {
            return stopped.answer();
        }
    }
}
