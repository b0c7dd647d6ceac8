package nestedvm;

import java.time.Instant;
import java.util.ArrayList;
import java.util.HashSet;
import java.util.List;
import java.util.Set;

/** What the system of a stopped run has: its files, its descriptors, and what was written and not read. */
final class SystemState {
    private static final int NANOSECONDS = 1_000_000_000;
    private static final int LONGEST_FOLDER = 254;

    /** Seconds whose sums are still moments of Java. */
    private static final long MOST_SECONDS = 1L << 53;

    private final int programBreak;
    private final Instant start;
    private final long elapsed;
    private final int blocks;
    private final List<FileState> files;
    private final List<String> folders;
    private final DescriptorsState descriptors;
    private final byte[] input;
    private final byte[] output;
    private final byte[] errorOutput;

    /** That of files and descriptors, with a program break, input that was not read and output that is gathered. */
    static SystemState of(int programBreak, GuestFiles files, Descriptors descriptors, byte[] input, byte[] output, byte[] errorOutput) {
        List<MemoryFile> inMemory = files.named();
        descriptors.addUnnamed(inMemory);
        List<FileState> states = new ArrayList<>();
        for (MemoryFile file : inMemory) {
            states.add(new FileState(file.name() == null ? "" : file.name(), file.content()));
        }
        GuestClock clock = files.clock();
        return new SystemState(programBreak, clock.start(), clock.elapsed().toNanos(), files.blocks(), states, files.folders(), descriptors.state(inMemory),
            input, output, errorOutput);
    }

    private SystemState(int programBreak, Instant start, long elapsed, int blocks, List<FileState> files, List<String> folders,
        DescriptorsState descriptors, byte[] input, byte[] output, byte[] errorOutput) {
        this.programBreak = programBreak;
        this.start = start;
        this.elapsed = elapsed;
        this.blocks = blocks;
        this.files = files;
        this.folders = folders;
        this.descriptors = descriptors;
        this.input = input;
        this.output = output;
        this.errorOutput = errorOutput;
    }

    int programBreak() {
        return programBreak;
    }

    /** The moment at which the run began. */
    Instant start() {
        return start;
    }

    /** For how many nanoseconds it has run. */
    long elapsed() {
        return elapsed;
    }

    int blocks() {
        return blocks;
    }

    List<FileState> files() {
        return files;
    }

    List<String> folders() {
        return folders;
    }

    DescriptorsState descriptors() {
        return descriptors;
    }

    /** The input that was not read. */
    byte[] input() {
        return input;
    }

    byte[] output() {
        return output;
    }

    byte[] errorOutput() {
        return errorOutput;
    }

    void write(SnapshotWriter writer) {
        writer.putInt(programBreak);
        writer.putLong(start.getEpochSecond());
        writer.putInt(start.getNano());
        writer.putLong(elapsed);
        writer.putInt(blocks);
        writer.putInt(files.size());
        files.forEach(file -> file.write(writer));
        writer.putInt(folders.size());
        folders.forEach(writer::putName);
        descriptors.write(writer);
        writer.putBytes(input);
        writer.putBytes(output);
        writer.putBytes(errorOutput);
    }

    /** Reads what {@link #write} wrote. */
    static SystemState read(SnapshotReader reader) {
        int programBreak = reader.number();
        Instant start = readMoment(reader);
        long elapsed = reader.longNumber();
        SnapshotReader.need(elapsed >= 0 && elapsed <= Long.MAX_VALUE / 2, "the time that it has run is none");
        int blocks = reader.numberUpTo(GuestFiles.MOST_BLOCKS, "the blocks of a disk");
        List<FileState> files = readFiles(reader, blocks);
        List<String> folders = readFolders(reader);
        DescriptorsState descriptors = DescriptorsState.read(reader, files);
        byte[] input = reader.bytes(Integer.MAX_VALUE, "the bytes of input");
        byte[] output = reader.bytes(Integer.MAX_VALUE, "the bytes of output");
        byte[] errorOutput = reader.bytes(Integer.MAX_VALUE, "the bytes of error output");
        return new SystemState(programBreak, start, elapsed, blocks, files, folders, descriptors, input, output, errorOutput);
    }

    private static Instant readMoment(SnapshotReader reader) {
        long seconds = reader.longNumber();
        int nanoseconds = reader.numberUpTo(NANOSECONDS - 1, "nanoseconds");
        SnapshotReader.need(Math.abs(seconds) <= MOST_SECONDS, "the moment at which it began is none");
        return Instant.ofEpochSecond(seconds, nanoseconds);
    }

    private static List<FileState> readFiles(SnapshotReader reader, int blocks) {
        List<FileState> files = new ArrayList<>();
        Set<String> names = new HashSet<>();
        int count = reader.numberUpTo(GuestFiles.MOST_FILES, "the files");
        long used = 0;
        for (int i = 0; i < count; i++) {
            FileState file = FileState.read(reader);
            SnapshotReader.need(file.name().isEmpty() || names.add(file.name()), "two files have one name");
            used += GuestFile.blocksFor(file.content().length);
            files.add(file);
        }
        SnapshotReader.need(used <= blocks, "its files need " + used + " blocks, and there are " + blocks);
        return files;
    }

    private static List<String> readFolders(SnapshotReader reader) {
        List<String> folders = new ArrayList<>();
        int count = reader.numberUpTo(Folders.MOST_FOLDERS, "the folders");
        for (int i = 0; i < count; i++) {
            String name = reader.name(LONGEST_FOLDER);
            SnapshotReader.need(!name.isEmpty() && !folders.contains(name), "two folders have one name, or one has none");
            folders.add(name);
        }
        return folders;
    }
}
