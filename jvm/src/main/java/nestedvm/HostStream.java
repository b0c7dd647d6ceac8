package nestedvm;

import java.util.function.Consumer;

/** A file that the host answers with bytes without an end, wherever it is read: /dev/zero and /dev/urandom. */
final class HostStream extends HostFile {
    private static final int PIECE_BYTES = 8192;

    private final Consumer<byte[]> source;

    /** A stream from a source, which fills an array. */
    HostStream(String name, Consumer<byte[]> source) {
        super(name);
        this.source = source;
    }

    @Override
    int length() {
        return 0;
    }

    @Override
    void read(int place, GuestMemory memory, int address, int count) {
        int done = 0;
        while (done < count) {
            byte[] piece = new byte[Math.min(count - done, PIECE_BYTES)];
            source.accept(piece);
            memory.put(address + done, piece, 0, piece.length);
            done += piece.length;
        }
    }

    @Override
    FileStatus status() {
        return FileStatus.device();
    }
}
