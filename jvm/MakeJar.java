import java.io.IOException;
import java.io.InputStream;
import java.io.OutputStream;
import java.nio.file.Files;
import java.nio.file.Path;
import java.nio.file.Paths;
import java.time.LocalDateTime;
import java.util.List;
import java.util.jar.JarFile;
import java.util.jar.Manifest;
import java.util.stream.Collectors;
import java.util.stream.Stream;
import java.util.zip.ZipEntry;
import java.util.zip.ZipOutputStream;

/**
 * Makes a jar that has the same bytes each time: {@code java MakeJar.java JAR MANIFEST FOLDER}. The files of the folder stand in it in the order of
 * their names, behind the manifest, and all of one moment.
 */
public final class MakeJar {
    private static final LocalDateTime MOMENT = LocalDateTime.of(2020, 1, 1, 0, 0);

    private MakeJar() {
    }

    /**
     * Makes the jar.
     *
     * @param words the jar, the file of its manifest without the line of its version, and the folder
     * @throws IOException where a file cannot be read or written
     */
    public static void main(String[] words) throws IOException {
        Path folder = Paths.get(words[2]);
        try (OutputStream jar = Files.newOutputStream(Paths.get(words[0])); ZipOutputStream entries = new ZipOutputStream(jar)) {
            begin(entries, JarFile.MANIFEST_NAME);
            manifest(Paths.get(words[1])).write(entries);
            for (Path file : files(folder)) {
                begin(entries, folder.relativize(file).toString().replace('\\', '/'));
                Files.copy(file, entries);
            }
        }
    }

    private static void begin(ZipOutputStream entries, String name) throws IOException {
        ZipEntry entry = new ZipEntry(name);
        entry.setTimeLocal(MOMENT);
        entries.putNextEntry(entry);
    }

    private static Manifest manifest(Path file) throws IOException {
        try (InputStream lines = Files.newInputStream(file)) {
            Manifest manifest = new Manifest(lines);
            manifest.getMainAttributes().putValue("Manifest-Version", "1.0");
            return manifest;
        }
    }

    private static List<Path> files(Path folder) throws IOException {
        try (Stream<Path> paths = Files.walk(folder)) {
            return paths.filter(Files::isRegularFile).sorted().collect(Collectors.toList());
        }
    }
}
