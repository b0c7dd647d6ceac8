package nestedvm;

import java.util.List;

/** What a descriptor of a stopped run stands for. */
final class DescriptionState {
    private static final int FILE = 3;
    private static final int DEVICE = 4;
    private static final int RECORD = 5;

    private static final int MAY_READ = 1;
    private static final int MAY_WRITE = 2;
    private static final int APPENDS = 4;

    private static final int LONGEST_NAME = 255;
    private static final int LONGEST_RECORD = 16_777_216 + LONGEST_NAME + 2;

    /** 0 to 2 for the sides of the console, or one of the kinds above. */
    private final int kind;

    /** The number of the file among the files in memory. */
    private int file;

    /** The name of a file of the host, with its bytes and status where it is a record. */
    private String name;
    private byte[] record;
    private byte[] status;

    private int access;
    private int place;

    private DescriptionState(int kind) {
        this.kind = kind;
    }

    /** That of a description, whose file in memory is one of these. */
    static DescriptionState of(Description description, List<MemoryFile> files) {
        if (description.isConsole()) {
            return new DescriptionState(description.side().ordinal());
        }
        DescriptionState state = ofFile(description.file(), files);
        state.access = (description.mayRead() ? MAY_READ : 0) | (description.mayWrite() ? MAY_WRITE : 0) | (description.appends() ? APPENDS : 0);
        state.place = description.place();
        return state;
    }

    private static DescriptionState ofFile(GuestFile file, List<MemoryFile> files) {
        if (file instanceof MemoryFile) {
            DescriptionState state = new DescriptionState(FILE);
            state.file = files.indexOf(file);
            return state;
        }
        if (!(file instanceof HostFile)) {
            throw new IllegalStateException("a file of the call's folder is open, and a snapshot has none: " + file.name());
        }
        DescriptionState state = new DescriptionState(file instanceof HostRecord ? RECORD : DEVICE);
        state.name = file.name();
        if (file instanceof HostRecord) {
            state.record = ((HostRecord) file).bytes();
            state.status = ((HostFile) file).status().record();
        }
        return state;
    }

    /** The description, which has one more of these files open. */
    Description restore(List<MemoryFile> files, GuestFiles all) {
        if (kind < FILE) {
            return Description.ofConsole(Side.values()[kind]);
        }
        boolean mayWrite = (access & MAY_WRITE) != 0;
        Description description = Description.ofFile(fileOf(files, all), (access & MAY_READ) != 0, mayWrite, (access & APPENDS) != 0);
        description.setPlace(place);
        try {
            description.file().open(mayWrite);
        } catch (Refusal impossible) {
            throw new IllegalStateException(impossible);
        }
        return description;
    }

    private GuestFile fileOf(List<MemoryFile> files, GuestFiles all) {
        switch (kind) {
            case FILE:
                return files.get(file);
            case DEVICE:
                return all.device(name);
            default:
                return new HostRecord(name, record, FileStatus.ofRecord(status));
        }
    }

    /** The number of its file among those in memory, or -1. */
    int file() {
        return kind == FILE ? file : -1;
    }

    void write(SnapshotWriter writer) {
        writer.putByte(kind);
        if (kind < FILE) {
            return;
        }
        if (kind == FILE) {
            writer.putInt(file);
        } else {
            writer.putName(name);
        }
        if (kind == RECORD) {
            writer.putBytes(record);
            writer.putRaw(status);
        }
        writer.putByte(access);
        writer.putInt(place);
    }

    /** Reads what {@link #write} wrote, of a run with so many files in memory. */
    static DescriptionState read(SnapshotReader reader, int files) {
        DescriptionState state = new DescriptionState(reader.oneByte());
        SnapshotReader.need(state.kind <= RECORD, "there is no description of kind " + state.kind);
        if (state.kind < FILE) {
            return state;
        }
        if (state.kind == FILE) {
            state.file = reader.numberUpTo(files - 1, "the numbers of files");
        } else {
            state.readHostFile(reader);
        }
        state.access = reader.oneByte();
        boolean isHostFile = state.kind != FILE;
        boolean isAccess = (state.access & ~(MAY_READ | MAY_WRITE | APPENDS)) == 0 && (state.access & (MAY_READ | MAY_WRITE)) != 0;
        SnapshotReader.need(isAccess && !(isHostFile && (state.access & MAY_WRITE) != 0), "a description has an access that none has");
        state.place = reader.numberUpTo(Integer.MAX_VALUE, "places in files");
        return state;
    }

    private void readHostFile(SnapshotReader reader) {
        name = reader.name(LONGEST_NAME);
        if (kind == DEVICE) {
            SnapshotReader.need(HostFiles.isDevice(name), "there is no device of a name that is told");
            return;
        }
        record = reader.bytes(LONGEST_RECORD, "the bytes of a record");
        status = reader.raw(FileStatus.BYTES);
        SnapshotReader.need(FileStatus.isRecord(status), "a status has no time");
    }
}
