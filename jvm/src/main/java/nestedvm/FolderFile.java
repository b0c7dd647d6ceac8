package nestedvm;

import java.io.IOException;
import java.nio.ByteBuffer;
import java.nio.channels.ClosedByInterruptException;
import java.nio.channels.FileChannel;
import java.nio.file.AccessDeniedException;
import java.nio.file.Files;
import java.nio.file.NoSuchFileException;
import java.nio.file.Path;
import java.nio.file.StandardOpenOption;
import java.nio.file.attribute.BasicFileAttributes;
import java.util.Objects;

/** A file of a folder, whose bytes are read and written where they are. It uses no block of the guest's disk. A failure ends the run. */
final class FolderFile extends GuestFile {
    private static final int PIECE_BYTES = 65_536;

    private final LiveFolder folder;

    /** Where the bytes are, while a description stands for the file. */
    private FileChannel channel;

    /** What tells the file from others, where the file system has such a thing. */
    private Object key;
    private boolean isWritable;

    FolderFile(String name, LiveFolder folder) {
        super(name);
        this.folder = folder;
    }

    @Override
    void open(boolean toWrite) throws Refusal {
        if (!isOpen()) {
            openFirst();
        }
        super.open(toWrite);
        if (toWrite && !isWritable || size() > Integer.MAX_VALUE) {
            close();
            throw new Refusal(toWrite && !isWritable ? Refusal.DENIED : Refusal.TOO_LARGE);
        }
    }

    private void openFirst() throws Refusal {
        try {
            Path path = needPath();
            key = keyOf(path);
            channel = openChannel(path);
        } catch (NoSuchFileException missing) {
            throw new Refusal(Refusal.NO_ENTRY);
        } catch (AccessDeniedException denied) {
            throw new Refusal(Refusal.DENIED);
        } catch (IOException | RuntimeException failure) {
            throw failed(failure);
        }
    }

    private Path needPath() throws NoSuchFileException {
        Path path = name() == null ? null : folder.pathOf(name());
        if (path == null) {
            throw new NoSuchFileException(name());
        }
        return path;
    }

    private static Object keyOf(Path path) throws IOException {
        return Files.readAttributes(path, BasicFileAttributes.class).fileKey();
    }

    /** Opens the file for reading, and for writing as well where that can be. */
    private FileChannel openChannel(Path path) throws IOException {
        if (folder.mayChange()) {
            try {
                FileChannel both = FileChannel.open(path, StandardOpenOption.READ, StandardOpenOption.WRITE);
                isWritable = true;
                return both;
            } catch (AccessDeniedException denied) {
                isWritable = false;
            }
        }
        return FileChannel.open(path, StandardOpenOption.READ);
    }

    /** The open file. An interrupt closes it whatever stands for it; then it is opened again, unless its name means another file by now. */
    private FileChannel channel() throws IOException {
        if (!channel.isOpen()) {
            Path path = needPath();
            if (!Objects.equals(key, keyOf(path))) {
                throw new IOException("another file is called " + path + " by now");
            }
            channel = openChannel(path);
        }
        return channel;
    }

    /** A thread that is interrupted while it reads or writes finds the file closed: that is an interrupt, and no failure of the folder. */
    private static Stopped failed(Exception failure) {
        if (failure instanceof ClosedByInterruptException) {
            Thread.interrupted();
            return new Stopped(Answer.interrupted());
        }
        return new Stopped(Answer.shelfFault(failure));
    }

    private long size() {
        try {
            return channel().size();
        } catch (IOException | RuntimeException failure) {
            throw failed(failure);
        }
    }

    @Override
    int length() {
        return (int) Math.min(size(), Integer.MAX_VALUE);
    }

    @Override
    int diskBlocksFor(int size) {
        return 0;
    }

    @Override
    void resize(int size) {
        try {
            FileChannel file = channel();
            if (size < file.size()) {
                file.truncate(size);
            } else if (size > file.size()) {
                file.write(ByteBuffer.allocate(1), size - 1L);
            }
        } catch (IOException | RuntimeException failure) {
            throw failed(failure);
        }
    }

    @Override
    void write(int place, GuestMemory memory, int address, int count) {
        int done = 0;
        while (done < count) {
            byte[] piece = new byte[Math.min(count - done, PIECE_BYTES)];
            memory.copy(address + done, piece, 0, piece.length);
            put(piece, (long) place + done);
            done += piece.length;
        }
    }

    private void put(byte[] piece, long place) {
        try {
            ByteBuffer rest = ByteBuffer.wrap(piece);
            while (rest.hasRemaining()) {
                channel().write(rest, place + rest.position());
            }
        } catch (IOException | RuntimeException failure) {
            throw failed(failure);
        }
    }

    @Override
    void read(int place, GuestMemory memory, int address, int count) {
        int done = 0;
        while (done < count) {
            byte[] piece = new byte[Math.min(count - done, PIECE_BYTES)];
            take(piece, (long) place + done);
            memory.put(address + done, piece, 0, piece.length);
            done += piece.length;
        }
    }

    /** Reads bytes from a place on. Where another hand has cut the file meanwhile they are zeros. */
    private void take(byte[] piece, long place) {
        try {
            ByteBuffer room = ByteBuffer.wrap(piece);
            int count = 0;
            while (room.hasRemaining() && count >= 0) {
                count = channel().read(room, place + room.position());
            }
        } catch (IOException | RuntimeException failure) {
            throw failed(failure);
        }
    }

    @Override
    void close() {
        super.close();
        if (!isOpen()) {
            closeChannel();
        }
    }

    /** Closes the file, whatever stands for it. */
    void closeChannel() {
        try {
            channel.close();
        } catch (IOException | RuntimeException failure) {
            throw failed(failure);
        }
    }
}
