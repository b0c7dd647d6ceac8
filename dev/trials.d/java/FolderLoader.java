import java.io.IOException;
import java.nio.file.Files;
import java.nio.file.Path;
import java.nio.file.Paths;

/** Loads the classes of a folder, which are verified as those of any class loader of a program; others are those of the virtual machine. */
final class FolderLoader extends ClassLoader {
    private final Path folder;

    FolderLoader(String folder) {
        super(FolderLoader.class.getClassLoader());
        this.folder = Paths.get(folder);
    }

    @Override
    protected Class<?> findClass(String name) throws ClassNotFoundException {
        Path file = folder.resolve(name.replace('.', '/') + ".class");
        try {
            byte[] bytes = Files.readAllBytes(file);
            return defineClass(null, bytes, 0, bytes.length);
        } catch (IOException e) {
            throw new ClassNotFoundException(name, e);
        }
    }
}
