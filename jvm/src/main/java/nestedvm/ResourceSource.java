package nestedvm;

import java.io.IOException;
import java.io.InputStream;
import java.util.concurrent.ConcurrentHashMap;
import java.util.concurrent.ConcurrentMap;

/** The class files of a program that are resources of a class loader. Each is read once. */
final class ResourceSource implements ClassSource {
    private final ClassLoader resources;
    private final String folder;
    private final ConcurrentMap<String, byte[]> files = new ConcurrentHashMap<>();

    /** The resources of a folder, whose name is empty or ends with a slash. */
    ResourceSource(ClassLoader resources, String folder) {
        this.resources = resources;
        this.folder = folder;
    }

    /** The name of the folder, empty or with a slash at its end. */
    String folder() {
        return folder;
    }

    @Override
    public byte[] find(String className) {
        return files.computeIfAbsent(className, name -> load(name + ".class"));
    }

    @Override
    public byte[] findSymbols(String className) {
        return load(className + StoredSource.SYMBOLS);
    }

    private byte[] load(String name) {
        try (InputStream file = resources.getResourceAsStream(folder + name)) {
            return file == null ? null : WholeStream.of(file);
        } catch (IOException failure) {
            throw new IllegalStateException("cannot read " + folder + name, failure);
        }
    }
}
