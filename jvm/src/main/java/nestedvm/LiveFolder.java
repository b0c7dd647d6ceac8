package nestedvm;

import java.io.IOException;
import java.nio.ByteBuffer;
import java.nio.charset.CharacterCodingException;
import java.nio.charset.StandardCharsets;
import java.nio.file.AccessDeniedException;
import java.nio.file.DirectoryNotEmptyException;
import java.nio.file.DirectoryStream;
import java.nio.file.FileAlreadyExistsException;
import java.nio.file.Files;
import java.nio.file.InvalidPathException;
import java.nio.file.NoSuchFileException;
import java.nio.file.Path;
import java.nio.file.Paths;
import java.nio.file.ReadOnlyFileSystemException;
import java.nio.file.StandardCopyOption;
import java.util.ArrayList;
import java.util.List;
import java.util.Map;

/**
 * A folder whose files a guest finds by their names, in folders of the folder as well. A failure ends the run.
 *
 * <p>Unless it is the folder of the process, where an absolute name stands for itself, names that lead out of it name nothing: absolute
 * ones, those with too many {@code ..}, and links.
 */
final class LiveFolder {
    private final Path root;
    private final boolean mayChange;
    private final boolean isConfined;

    /** The files that descriptions stand for. */
    private final List<FolderFile> open = new ArrayList<>();

    private LiveFolder(Path root, boolean mayChange, boolean isConfined) {
        this.root = root;
        this.mayChange = mayChange;
        this.isConfined = isConfined;
    }

    /** A folder that names do not lead out of. */
    static LiveFolder of(Path root, FolderAccess access) {
        try {
            return new LiveFolder(root.toRealPath(), access == FolderAccess.READ_AND_WRITE, true);
        } catch (IOException | RuntimeException failure) {
            throw new Stopped(Answer.noFolder(root.toString(), failure));
        }
    }

    /** The folder in which the process was started, and all others by absolute names or {@code ..}. */
    static LiveFolder ofProcess() {
        return new LiveFolder(Paths.get(""), true, false);
    }

    /** Whether files of the folder may be written, made, renamed and removed. */
    boolean mayChange() {
        return mayChange;
    }

    /** Whether no name leads out of the folder. */
    boolean isConfined() {
        return isConfined;
    }

    /** The present file of a name, or null. */
    FolderFile find(String name) {
        for (FolderFile file : open) {
            if (name.equals(file.name())) {
                return file;
            }
        }
        Path path = pathOf(name);
        return path != null && isFile(path) ? new FolderFile(name, this) : null;
    }

    private static boolean isFile(Path path) {
        try {
            return Files.isRegularFile(path);
        } catch (RuntimeException failure) {
            throw new Stopped(Answer.shelfFault(failure));
        }
    }

    /** The place of a name, or null where it leads out of the folder, to no folder, or is no UTF-8. */
    Path pathOf(String name) {
        try {
            byte[] bytes = name.getBytes(StandardCharsets.ISO_8859_1);
            Path path = root.resolve(StandardCharsets.UTF_8.newDecoder().decode(ByteBuffer.wrap(bytes)).toString());
            return isConfined ? within(path.normalize()) : path;
        } catch (CharacterCodingException | InvalidPathException none) {
            return null;
        }
    }

    private Path within(Path path) {
        try {
            boolean isInside = path.startsWith(root) && !path.equals(root)
                && (Files.exists(path) ? path.toRealPath() : path.getParent().toRealPath()).startsWith(root)
                && (Files.exists(path) || !Files.isSymbolicLink(path));
            return isInside ? path : null;
        } catch (NoSuchFileException missing) {
            return null;
        } catch (IOException | RuntimeException failure) {
            throw new Stopped(Answer.shelfFault(failure));
        }
    }

    /** Where a file of this name is or may be, or the call is refused. */
    private Path needPath(String name) throws Refusal {
        Path path = pathOf(name);
        if (path == null || !Files.isDirectory(path.toAbsolutePath().getParent())) {
            throw new Refusal(Refusal.NO_ENTRY);
        }
        return path;
    }

    /** Makes an empty file of a new name, or the call is refused. */
    FolderFile create(String name) throws Refusal {
        Path path = needPath(name);
        change(() -> Files.createFile(path));
        return new FolderFile(name, this);
    }

    /** Opens a file, or the call is refused. */
    void open(FolderFile file, boolean toWrite) throws Refusal {
        boolean wasOpen = file.isOpen();
        file.open(toWrite);
        if (!wasOpen) {
            open.add(file);
        }
    }

    /** One description less stands for a file. */
    void close(FolderFile file) {
        file.close();
        if (!file.isOpen()) {
            open.remove(file);
        }
    }

    /** Removes a file, or the call is refused. Whoever has it open keeps it. */
    void delete(FolderFile file) throws Refusal {
        needChange();
        Path path = needPath(file.name());
        change(() -> Files.delete(path));
        file.setName(null);
    }

    /** Gives a file another name, which a present file of that name loses; or the call is refused. */
    void move(FolderFile file, String name) throws Refusal {
        needChange();
        Path from = needPath(file.name());
        Path to = needPath(name);
        if (Files.isDirectory(to)) {
            throw new Refusal(Refusal.DENIED);
        }
        change(() -> Files.move(from, to, StandardCopyOption.REPLACE_EXISTING));
        for (FolderFile other : open) {
            if (name.equals(other.name())) {
                other.setName(null);
            }
        }
        file.setName(name);
    }

    /** The path that the guest gives to this folder: its own where names are those of the file system, and else a slash. */
    String startPath() {
        return isConfined ? "/" : root.toAbsolutePath().normalize().toString();
    }

    private Path folderPath(String name) {
        return name.isEmpty() ? root : pathOf(name);
    }

    /** What a name stands for, or null. */
    FileStatus status(String name) {
        Path path = folderPath(name);
        try {
            return path == null || !Files.exists(path) ? null : FileStatus.of(path, mayChange);
        } catch (IOException gone) {
            return null;
        } catch (RuntimeException failure) {
            throw new Stopped(Answer.shelfFault(failure));
        }
    }

    /** Adds the names in a folder, with the letters of their kinds, where all of them have at most so many bytes; or the call is refused. */
    void addNames(String name, Map<String, Character> names, int mostBytes) throws Refusal {
        Path path = folderPath(name);
        if (path == null || !Files.isDirectory(path)) {
            return;
        }
        int bytes = 0;
        try (DirectoryStream<Path> children = Files.newDirectoryStream(path)) {
            for (Path child : children) {
                String own = Names.pathOf(child.getFileName().toString());
                bytes += own.length() + 2;
                if (bytes > mostBytes) {
                    throw new Refusal(Refusal.NO_MEMORY);
                }
                if (!isConfined || !Files.isSymbolicLink(child) || within(child) != null) {
                    names.put(own, Files.isDirectory(child) ? 'd' : Files.isRegularFile(child) ? 'f' : 'o');
                }
            }
        } catch (AccessDeniedException denied) {
            throw new Refusal(Refusal.DENIED);
        } catch (IOException | RuntimeException failure) {
            throw new Stopped(Answer.shelfFault(failure));
        }
    }

    /** Makes a folder of a new name, or the call is refused. */
    void makeFolder(String name) throws Refusal {
        Path path = needPath(name);
        change(() -> Files.createDirectory(path));
    }

    /** Removes a folder in which nothing is, or the call is refused. */
    void removeFolder(String name) throws Refusal {
        needChange();
        Path path = needPath(name);
        change(() -> Files.delete(path));
    }

    /** Gives a folder a new name, or the call is refused. Files in it that are open stay so, by their new names. */
    void moveFolder(String from, String to) throws Refusal {
        needChange();
        Path path = needPath(from);
        Path moved = needPath(to);
        change(() -> Files.move(path, moved));
        for (FolderFile file : open) {
            if (file.name() != null && file.name().startsWith(from + "/")) {
                file.setName(to + file.name().substring(from.length()));
            }
        }
    }

    /** Refuses the call where the files of the folder are only read. */
    void needChange() throws Refusal {
        if (!mayChange) {
            throw new Refusal(Refusal.DENIED);
        }
    }

    private interface Change {
        void make() throws IOException;
    }

    private static void change(Change change) throws Refusal {
        try {
            change.make();
        } catch (NoSuchFileException missing) {
            throw new Refusal(Refusal.NO_ENTRY);
        } catch (DirectoryNotEmptyException full) {
            throw new Refusal(Refusal.NOT_EMPTY);
        } catch (AccessDeniedException | FileAlreadyExistsException | ReadOnlyFileSystemException denied) {
            throw new Refusal(Refusal.DENIED);
        } catch (IOException | RuntimeException failure) {
            throw new Stopped(Answer.shelfFault(failure));
        }
    }

    /** Closes all files, also where one of them fails. */
    void closeAll() {
        Stopped failure = null;
        for (FolderFile file : open) {
            try {
                file.closeChannel();
            } catch (Stopped stopped) {
                failure = stopped;
            }
        }
        open.clear();
        if (failure != null) {
            throw failure;
        }
    }
}
