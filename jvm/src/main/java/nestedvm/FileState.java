package nestedvm;

/** A file in memory of a stopped run. */
final class FileState {
    /** The most bytes of a name. */
    private static final int LONGEST_NAME = 255;

    /** The name, empty where the file has none. */
    private final String name;

    private final byte[] content;

    FileState(String name, byte[] content) {
        this.name = name;
        this.content = content;
    }

    String name() {
        return name;
    }

    byte[] content() {
        return content;
    }

    void write(SnapshotWriter writer) {
        writer.putName(name);
        writer.putBytes(content);
    }

    static FileState read(SnapshotReader reader) {
        return new FileState(reader.name(LONGEST_NAME), reader.bytes(Integer.MAX_VALUE, "the bytes of a file"));
    }
}
