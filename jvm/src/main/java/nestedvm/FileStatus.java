package nestedvm;

import java.io.IOException;
import java.nio.ByteBuffer;
import java.nio.file.Files;
import java.nio.file.Path;
import java.nio.file.attribute.BasicFileAttributes;
import java.nio.file.attribute.PosixFilePermission;
import java.time.DateTimeException;
import java.time.Instant;

/** What a host tells of a file or folder: its kind and permissions as POSIX has them, its size, and when it was changed and read. */
final class FileStatus {
    /** The bytes of a record. */
    static final int BYTES = 36;

    private static final int FOLDER = 0040000;
    private static final int FILE = 0100000;
    private static final int DEVICE = 0020000;
    private static final int KIND = 0170000;
    private static final int MAY_ALL = 0777;
    private static final int MAY_WRITE = 0222;

    private final int mode;
    private final long size;
    private final Instant changed;
    private final Instant read;

    private FileStatus(int mode, long size, Instant changed, Instant read) {
        this.mode = mode;
        this.size = size;
        this.changed = changed;
        this.read = read;
    }

    /** A file with permissions, the nine bits of POSIX. */
    static FileStatus file(int permissions, long size, Instant changed, Instant read) {
        return new FileStatus(FILE | permissions, size, changed, read);
    }

    /** A folder with permissions. */
    static FileStatus folder(int permissions, Instant changed, Instant read) {
        return new FileStatus(FOLDER | permissions, 0, changed, read);
    }

    /** What stands at a path of the host, where it may be changed or not. */
    static FileStatus of(Path path, boolean mayChange) throws IOException {
        BasicFileAttributes attributes = Files.readAttributes(path, BasicFileAttributes.class);
        Instant changed = attributes.lastModifiedTime().toInstant();
        Instant read = attributes.lastAccessTime().toInstant();
        int permissions = permissions(path) & (mayChange ? MAY_ALL : MAY_ALL & ~MAY_WRITE);
        if (attributes.isDirectory()) {
            return folder(permissions, changed, read);
        }
        return attributes.isRegularFile() ? file(permissions, attributes.size(), changed, read) : new FileStatus(DEVICE | permissions, 0, changed, read);
    }

    /** The nine bits of POSIX, or those that stand for what the process may do. */
    private static int permissions(Path path) throws IOException {
        try {
            int bits = 0;
            for (PosixFilePermission permission : Files.getPosixFilePermissions(path)) {
                bits |= 0400 >> permission.ordinal();
            }
            return bits;
        } catch (UnsupportedOperationException none) {
            return (Files.isReadable(path) ? 0444 : 0) | (Files.isWritable(path) ? MAY_WRITE : 0) | (Files.isExecutable(path) ? 0111 : 0);
        }
    }

    /** A device: what is no file and no folder. */
    static FileStatus device() {
        return new FileStatus(DEVICE | 0666, 0, Instant.EPOCH, Instant.EPOCH);
    }

    /** What a record tells, which {@link #isRecord}. */
    static FileStatus ofRecord(byte[] record) {
        ByteBuffer bytes = ByteBuffer.wrap(record);
        return new FileStatus(bytes.getInt(), bytes.getLong(), time(bytes), time(bytes));
    }

    /** Whether so many bytes are a record: whether their times are times. */
    static boolean isRecord(byte[] record) {
        try {
            return ofRecord(record).record().length == BYTES;
        } catch (DateTimeException | ArithmeticException none) {
            return false;
        }
    }

    private static Instant time(ByteBuffer record) {
        return Instant.ofEpochSecond(record.getLong(), record.getInt());
    }

    boolean isFolder() {
        return (mode & KIND) == FOLDER;
    }

    /** The record: the mode in 4 bytes, the size in 8, and both times, each with seconds in 8 and nanoseconds in 4. */
    byte[] record() {
        ByteBuffer record = ByteBuffer.allocate(BYTES).putInt(mode).putLong(size);
        putTime(record, changed);
        putTime(record, read);
        return record.array();
    }

    /** Puts seconds since 1970 and nanoseconds. */
    static void putTime(ByteBuffer record, Instant time) {
        record.putLong(time.getEpochSecond()).putInt(time.getNano());
    }
}
