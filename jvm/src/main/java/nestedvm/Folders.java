package nestedvm;

import java.io.ByteArrayOutputStream;
import java.nio.charset.StandardCharsets;
import java.util.ArrayList;
import java.util.List;
import java.util.Map;
import java.util.Set;
import java.util.TreeMap;
import java.util.TreeSet;

/**
 * The folders of a guest. Files in memory are in folders by the slashes of their names, and further ones are made by the guest; a live folder has its
 * own. Names have a character for each of their bytes. The name of the folder at the start is empty.
 */
final class Folders {
    /** The most folders in memory that a guest makes. */
    static final int MOST_FOLDERS = 256;

    private static final int LONGEST_NAME = 255;

    /** The most bytes of a list. */
    private static final int LONGEST_LIST = 16_777_216;

    private static final String TEMPORARY = "tmp/";

    private static final int MAY_ALL = 0777;
    private static final int MAY_READ_AND_WRITE = 0666;

    private final Map<String, MemoryFile> files;
    private final LiveFolder live;
    private final GuestClock clock;

    /** The folders in memory that the guest has made. */
    private final Set<String> made = new TreeSet<>();

    /** Folders of files in memory, by their names, and of a live folder, which may be null. */
    Folders(Map<String, MemoryFile> files, LiveFolder live, GuestClock clock) {
        this.files = files;
        this.live = live;
        this.clock = clock;
    }

    /** The folders in memory that the guest has made. */
    List<String> made() {
        return new ArrayList<>(made);
    }

    /** The guest has made these folders in memory. */
    void restore(List<String> folders) {
        made.addAll(folders);
    }

    /** Whether a name stands for a folder that is made, removed or renamed: it ends in a slash. */
    static boolean isFolderName(String name) {
        return name.endsWith("/");
    }

    private static String withoutSlash(String name) {
        return name.substring(0, name.length() - 1);
    }

    /** The path that the guest gives to the folder in which it begins: one of the host's file system where all of it is there, and else a slash. */
    byte[] start() {
        return Names.bytesOf(live == null ? "/" : live.startPath());
    }

    /** What a name stands for, or null. */
    FileStatus status(String name) {
        MemoryFile file = files.get(name);
        if (file != null) {
            return FileStatus.file(MAY_READ_AND_WRITE, file.length(), clock.start(), clock.start());
        }
        if (isInMemory(name)) {
            return FileStatus.folder(MAY_ALL, clock.start(), clock.start());
        }
        return live == null ? null : live.status(name);
    }

    /** What a file of the guest is. */
    FileStatus status(GuestFile file) {
        FileStatus status = file instanceof FolderFile && file.name() != null ? live.status(file.name()) : null;
        return status != null ? status : FileStatus.file(MAY_READ_AND_WRITE, file.length(), clock.start(), clock.start());
    }

    /** Whether a file that is made with this name is one in memory: a device, or a temporary one where a call's folder has no folder for such files. */
    boolean isForMemory(String name) {
        return name.startsWith(HostFiles.DEVICES)
            || live.isConfined() && name.startsWith(TEMPORARY) && live.status(withoutSlash(TEMPORARY)) == null;
    }

    /** The folder of a name with a slash behind it, or null. */
    HostFile find(String name) {
        FileStatus status = status(withoutSlash(name));
        return status == null || !status.isFolder() ? null : new HostRecord(name, new byte[0], status);
    }

    /** Whether a folder in memory has this name. */
    private boolean isInMemory(String name) {
        if (made.contains(name) || name.isEmpty() && live == null) {
            return true;
        }
        String start = name + "/";
        for (String other : files.keySet()) {
            if (other.startsWith(start)) {
                return true;
            }
        }
        return false;
    }

    /** The list of a folder: for each name in it the letter of its kind, its bytes and a zero. */
    HostFile list(String path, String name) throws Refusal {
        FileStatus status = needFolder(name);
        Map<String, Character> names = new TreeMap<>();
        if (live != null) {
            live.addNames(name, names, LONGEST_LIST);
        }
        addNamesInMemory(name.isEmpty() ? "" : name + "/", names);
        return new HostRecord(path, bytesOf(names), status);
    }

    private void addNamesInMemory(String start, Map<String, Character> names) {
        for (String file : files.keySet()) {
            addName(start, file, 'f', names);
        }
        for (String folder : made) {
            addName(start, folder, 'd', names);
        }
    }

    /** Adds what is in the folder that a name begins with: the rest of the name, or of that the first folder. */
    private static void addName(String start, String name, char letter, Map<String, Character> names) {
        if (!name.startsWith(start) || name.length() == start.length()) {
            return;
        }
        String rest = name.substring(start.length());
        int slash = rest.indexOf('/');
        if (slash < 0) {
            names.put(rest, letter);
        } else if (slash > 0) {
            names.put(rest.substring(0, slash), 'd');
        }
    }

    private static byte[] bytesOf(Map<String, Character> names) throws Refusal {
        ByteArrayOutputStream list = new ByteArrayOutputStream();
        for (Map.Entry<String, Character> entry : names.entrySet()) {
            list.write(entry.getValue());
            byte[] name = entry.getKey().getBytes(StandardCharsets.ISO_8859_1);
            list.write(name, 0, name.length);
            list.write(0);
            if (list.size() > LONGEST_LIST) {
                throw new Refusal(Refusal.NO_MEMORY);
            }
        }
        return list.toByteArray();
    }

    /** Makes a folder of a new name, or the call is refused. */
    HostFile make(String path) throws Refusal {
        String name = withoutSlash(path);
        if (status(name) != null) {
            throw new Refusal(Refusal.PRESENT);
        }
        if (live != null && live.mayChange()) {
            live.makeFolder(name);
        } else {
            makeInMemory(name);
        }
        return find(path);
    }

    private void makeInMemory(String name) throws Refusal {
        int slash = name.lastIndexOf('/');
        needFolder(slash < 0 ? "" : name.substring(0, slash));
        if (made.size() == MOST_FOLDERS) {
            throw new Refusal(Refusal.NO_SPACE);
        }
        made.add(name);
    }

    /** The status of the folder of a name, or the call is refused. */
    private FileStatus needFolder(String name) throws Refusal {
        FileStatus status = status(name);
        if (status == null || !status.isFolder()) {
            throw new Refusal(status == null ? Refusal.NO_ENTRY : Refusal.NO_FOLDER);
        }
        return status;
    }

    /** Removes a folder in which nothing is, or the call is refused. */
    void remove(String path) throws Refusal {
        if (!isFolderName(path)) {
            throw new Refusal(Refusal.DENIED);
        }
        String name = withoutSlash(path);
        if (name.isEmpty()) {
            throw new Refusal(Refusal.BUSY);
        }
        if (list(path, name).length() > 0) {
            throw new Refusal(Refusal.NOT_EMPTY);
        }
        if (!made.remove(name)) {
            live.removeFolder(name);
        }
    }

    /** Gives a folder another name, or the call is refused. */
    void move(String fromPath, String toPath) throws Refusal {
        if (!isFolderName(fromPath) || !isFolderName(toPath)) {
            throw new Refusal(isFolderName(toPath) ? Refusal.NO_FOLDER : Refusal.DENIED);
        }
        String from = withoutSlash(fromPath);
        String to = withoutSlash(toPath);
        needFolder(from);
        if (to.startsWith(fromPath) || from.isEmpty()) {
            throw new Refusal(Refusal.INVALID);
        }
        if (status(to) != null) {
            remove(toPath);
        }
        if (isInMemory(from)) {
            moveInMemory(from, to);
        } else {
            live.moveFolder(from, to);
        }
    }

    private void moveInMemory(String from, String to) throws Refusal {
        String start = from + "/";
        for (String name : files.keySet()) {
            if (name.startsWith(start) && name.length() - from.length() + to.length() > LONGEST_NAME) {
                throw new Refusal(Refusal.INVALID);
            }
        }
        for (String name : new ArrayList<>(files.keySet())) {
            if (name.startsWith(start)) {
                MemoryFile file = files.remove(name);
                file.setName(to + name.substring(from.length()));
                files.put(file.name(), file);
            }
        }
        for (String name : new ArrayList<>(made)) {
            if (name.equals(from) || name.startsWith(start)) {
                made.remove(name);
                made.add(to + name.substring(from.length()));
            }
        }
    }
}
