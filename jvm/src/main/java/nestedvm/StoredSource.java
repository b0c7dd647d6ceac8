package nestedvm;

import java.io.IOException;
import java.io.InputStream;
import java.nio.file.DirectoryStream;
import java.nio.file.Files;
import java.nio.file.Path;
import java.util.Enumeration;
import java.util.HashMap;
import java.util.Map;
import java.util.zip.ZipEntry;
import java.util.zip.ZipFile;

/** The class files of a program, all read, and held to their confinement, when it was made. */
final class StoredSource implements ClassSource {
    /** What the names of files of symbols end with. */
    static final String SYMBOLS = ".symbols";

    private static final String SUFFIX = ".class";

    private final Map<String, byte[]> files = new HashMap<>();
    private final Confinement confinement;
    private byte[] symbols;

    private StoredSource(String name) {
        confinement = new Confinement(name);
    }

    /** The class files of the program of a name in a folder. */
    static StoredSource ofFolder(Path folder, String name) throws IOException {
        StoredSource source = new StoredSource(name);
        Path symbols = folder.resolve(name + SYMBOLS);
        source.symbols = Files.isRegularFile(symbols) ? Files.readAllBytes(symbols) : null;
        try (DirectoryStream<Path> paths = Files.newDirectoryStream(folder, "*" + SUFFIX)) {
            for (Path path : paths) {
                String file = path.getFileName().toString();
                if (source.isOwn(file)) {
                    source.add(file, Files.readAllBytes(path));
                }
            }
        }
        return source;
    }

    /** The class files of the program of a name in a folder of a jar, whose name is empty or ends with a slash. */
    static StoredSource ofJar(ZipFile jar, String folder, String name) throws IOException {
        StoredSource source = new StoredSource(name);
        ZipEntry symbols = jar.getEntry(folder + name + SYMBOLS);
        if (symbols != null) {
            try (InputStream file = jar.getInputStream(symbols)) {
                source.symbols = WholeStream.of(file);
            }
        }
        Enumeration<? extends ZipEntry> entries = jar.entries();
        while (entries.hasMoreElements()) {
            ZipEntry entry = entries.nextElement();
            if (entry.getName().startsWith(folder) && source.isOwn(entry.getName().substring(folder.length()))) {
                try (InputStream file = jar.getInputStream(entry)) {
                    source.add(entry.getName().substring(folder.length()), WholeStream.of(file));
                }
            }
        }
        return source;
    }

    private boolean isOwn(String file) {
        return file.endsWith(SUFFIX) && confinement.isOwn(classOf(file));
    }

    private static String classOf(String file) {
        return file.substring(0, file.length() - SUFFIX.length());
    }

    private void add(String file, byte[] content) {
        confinement.check(classOf(file), content);
        files.put(classOf(file), content);
    }

    @Override
    public byte[] find(String className) {
        return files.get(className);
    }

    @Override
    public byte[] findSymbols(String className) {
        return symbols;
    }
}
