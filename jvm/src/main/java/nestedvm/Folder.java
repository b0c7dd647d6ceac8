package nestedvm;

import java.io.IOException;
import java.io.InputStream;
import java.nio.file.Files;
import java.nio.file.InvalidPathException;
import java.nio.file.NoSuchFileException;
import java.nio.file.Paths;

/** The files of the folder in which the launcher was started. An absolute name stands for itself. */
final class Folder {
    /** The class files of the folder. */
    static final ClassSource CLASSES = name -> load(name.replace('.', '/') + ".class");

    /** The most bytes of a file that are loaded: one more than the largest disk of a guest holds. */
    private static final int LONGEST_FILE = 268_435_457;

    private Folder() {
    }

    /** The bytes of a file, or null where there is none of that name. */
    static byte[] load(String name) {
        try (InputStream file = Files.newInputStream(Paths.get(name))) {
            return WholeStream.of(file, LONGEST_FILE);
        } catch (NoSuchFileException missing) {
            return null;
        } catch (IOException | InvalidPathException failure) {
            throw new Stopped(Answer.shelfFault(failure));
        }
    }

    /** Sets a file to these bytes. */
    static void store(String name, byte[] bytes) {
        try {
            Files.write(Paths.get(name), bytes);
        } catch (IOException | InvalidPathException failure) {
            throw new Stopped(Answer.shelfFault(failure));
        }
    }
}
