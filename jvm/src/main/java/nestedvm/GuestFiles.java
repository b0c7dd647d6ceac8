package nestedvm;

import java.util.ArrayList;
import java.util.HashMap;
import java.util.List;
import java.util.Map;
import java.util.Set;
import java.util.TreeMap;
import java.util.TreeSet;

/**
 * The files of a guest, by their names, and the blocks of its disk. They are in memory. There may be a folder beside, whose files are
 * found where none in memory has the name, and files that the host answers. These use no blocks, and do not count.
 */
final class GuestFiles {
    /** The most blocks of a disk. */
    static final int MOST_BLOCKS = 65_536;

    /** The most files in memory, those without a name included. */
    static final int MOST_FILES = 256;

    private static final long LONGEST_FILE = 0x7FFFFFFFL;

    private final Map<String, MemoryFile> named = new HashMap<>();
    private final int blocks;
    private final LiveFolder folder;
    private final HostFiles host;
    private final Folders folders;
    private int freeBlocks;

    /** How many files there are in memory, those without a name included. */
    private int count;

    /** No files but those of the host, and so many free blocks. */
    GuestFiles(int blocks, HostFiles host) {
        this(blocks, null, host);
    }

    /** The files of a folder, or none where it is null, those of the host, and so many free blocks. */
    GuestFiles(int blocks, LiveFolder folder, HostFiles host) {
        this.blocks = blocks;
        this.freeBlocks = blocks;
        this.folder = folder;
        this.host = host;
        this.folders = new Folders(named, folder, host.clock());
    }

    /** Adds a file that the guest finds, which begins with these bytes, or stops where there are too few blocks for it. The array is not changed. */
    void add(String path, byte[] content) {
        int needed = GuestFile.blocksFor(content.length);
        if (needed > freeBlocks) {
            throw new Stopped(Answer.filesTooLarge((long) blocks - freeBlocks + needed, blocks));
        }
        freeBlocks -= needed;
        insert(path, content);
    }

    /** Restores the files and folders of a stopped run, whose blocks there are; the files in their order. */
    List<MemoryFile> restore(SystemState state) {
        List<MemoryFile> restored = new ArrayList<>();
        for (FileState file : state.files()) {
            freeBlocks -= GuestFile.blocksFor(file.content().length);
            MemoryFile each = new MemoryFile(file.name().isEmpty() ? null : file.name(), file.content());
            if (each.name() != null) {
                named.put(each.name(), each);
            }
            restored.add(each);
        }
        count = restored.size();
        folders.restore(state.folders());
        return restored;
    }

    /** The files in memory that have a name, in the order of their names. */
    List<MemoryFile> named() {
        return new ArrayList<>(new TreeMap<>(named).values());
    }

    /** The blocks of the disk. */
    int blocks() {
        return blocks;
    }

    GuestClock clock() {
        return host.clock();
    }

    /** The folders in memory that the guest has made. */
    List<String> folders() {
        return folders.made();
    }

    /** A device of the host. */
    HostFile device(String name) {
        return host.device(name);
    }

    private MemoryFile insert(String path, byte[] content) {
        MemoryFile file = new MemoryFile(path, content);
        named.put(path, file);
        count++;
        return file;
    }

    /** The file of a path, or null. The host may refuse the call. */
    GuestFile find(String path) throws Refusal {
        GuestFile file = named.get(path);
        if (file == null && path.startsWith(HostFiles.DEVICES)) {
            file = host.find(path, folders);
        } else if (file == null && Folders.isFolderName(path)) {
            file = folders.find(path);
        }
        return file == null && folder != null ? folder.find(path) : file;
    }

    /** A file of the host that tells what a descriptor stands for. */
    GuestFile statusOf(String path, Description description) {
        GuestFile file = description.file();
        FileStatus status = file == null ? FileStatus.device() : file instanceof HostFile ? ((HostFile) file).status() : folders.status(file);
        return new HostRecord(path, status.record(), FileStatus.device());
    }

    /** The file of a path, or the call is refused. */
    GuestFile need(String path) throws Refusal {
        GuestFile file = find(path);
        if (file == null) {
            throw new Refusal(Refusal.NO_ENTRY);
        }
        return file;
    }

    /** Makes an empty file of a new path, or a folder: in the live folder where it may be changed, and else in memory. */
    GuestFile create(String path) throws Refusal {
        if (Folders.isFolderName(path)) {
            return folders.make(path);
        }
        if (folder != null && folder.mayChange() && !folders.isForMemory(path)) {
            return folder.create(path);
        }
        if (count == MOST_FILES) {
            throw new Refusal(Refusal.NO_SPACE);
        }
        return insert(path, new byte[0]);
    }

    /** One more description stands for a file, by which it may be written or not; or the call is refused. */
    void open(GuestFile file, boolean toWrite) throws Refusal {
        if (file instanceof FolderFile) {
            folder.open((FolderFile) file, toWrite);
        } else {
            file.open(toWrite);
        }
    }

    /** Cuts a file or puts zeros behind its bytes, unless there are too few blocks. */
    void resize(GuestFile file, int size) throws Refusal {
        int free = freeBlocks + file.diskBlocks() - file.diskBlocksFor(size);
        if (free < 0) {
            throw new Refusal(Refusal.NO_SPACE);
        }
        file.resize(size);
        freeBlocks = free;
    }

    /** Writes bytes of the guest's memory at a place of a file, and tells where they end. */
    int write(GuestFile file, int place, GuestMemory memory, int address, int count) throws Refusal {
        long end = (long) place + count;
        if (end > LONGEST_FILE) {
            throw new Refusal(Refusal.TOO_LARGE);
        }
        if (end > file.length()) {
            resize(file, (int) end);
        }
        file.write(place, memory, address, count);
        return (int) end;
    }

    /** Takes the name of a file away, or removes a folder; or the call is refused. */
    void unlink(GuestFile file) throws Refusal {
        if (file instanceof HostFile) {
            folders.remove(file.name());
            return;
        }
        if (file instanceof FolderFile) {
            folder.delete((FolderFile) file);
            return;
        }
        named.remove(file.name());
        file.setName(null);
        dropUnused(file);
    }

    /** Gives a file a path, which a present file of that path loses; or the call is refused. */
    void rename(GuestFile file, String path) throws Refusal {
        if (path.equals(file.name())) {
            return;
        }
        if (file instanceof HostFile || Folders.isFolderName(path)) {
            folders.move(file.name(), path);
            return;
        }
        if (file instanceof FolderFile) {
            folder.move((FolderFile) file, path);
            unlinkInMemory(path);
            return;
        }
        GuestFile other = find(path);
        if (other != null) {
            unlink(other);
        }
        named.remove(file.name());
        file.setName(path);
        named.put(path, (MemoryFile) file);
    }

    private void unlinkInMemory(String path) throws Refusal {
        MemoryFile file = named.get(path);
        if (file != null) {
            unlink(file);
        }
    }

    /** One description less stands for a file. */
    void close(GuestFile file) {
        if (file instanceof FolderFile) {
            folder.close((FolderFile) file);
        } else {
            file.close();
            dropUnused(file);
        }
    }

    private void dropUnused(GuestFile file) {
        if (file.isUnused()) {
            freeBlocks += file.diskBlocks();
            count--;
        }
    }

    /** A copy of the bytes of the file of a path in memory, or null. */
    byte[] contentOf(String path) {
        MemoryFile file = named.get(path);
        return file == null ? null : file.content();
    }

    /** The names of the files in memory, in order. */
    Set<String> names() {
        Set<String> names = new TreeSet<>();
        for (String path : named.keySet()) {
            names.add(Names.nameOf(path));
        }
        return names;
    }

    /** The files in memory that have a name, by their names in order, which do not change any longer. */
    Map<String, MemoryFile> leave() {
        Map<String, MemoryFile> files = new TreeMap<>();
        for (Map.Entry<String, MemoryFile> file : named.entrySet()) {
            file.getValue().leave();
            files.put(Names.nameOf(file.getKey()), file.getValue());
        }
        return files;
    }

    /** Closes the files of the folder. */
    void closeAll() {
        if (folder != null) {
            folder.closeAll();
        }
    }
}
