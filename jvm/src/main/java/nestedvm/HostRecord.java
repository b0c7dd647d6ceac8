package nestedvm;

/** A file that the host answers with bytes, which stay as they were when it was opened. */
final class HostRecord extends HostFile {
    private final byte[] bytes;
    private final FileStatus status;

    /** A record of these bytes, which tells this status of itself. */
    HostRecord(String name, byte[] bytes, FileStatus status) {
        super(name);
        this.bytes = bytes;
        this.status = status;
    }

    byte[] bytes() {
        return bytes;
    }

    @Override
    int length() {
        return bytes.length;
    }

    @Override
    void read(int place, GuestMemory memory, int address, int count) {
        memory.put(address, bytes, place, count);
    }

    @Override
    FileStatus status() {
        return status;
    }
}
