package nestedvm;

import java.io.IOException;
import java.io.InputStream;
import java.net.URL;
import java.util.Enumeration;
import java.util.jar.Attributes;
import java.util.jar.JarFile;
import java.util.jar.Manifest;
import java.util.zip.ZipEntry;
import java.util.zip.ZipFile;

/** What the manifest of a jar tells of the program in it: {@code Nested-Program}, the main class, and {@code Nested-Name}, argument 0. */
final class ProgramEntry {
    private static final String PROGRAM = "Nested-Program";
    private static final String NAME = "Nested-Name";

    private final String main;
    private final String name;

    private ProgramEntry(String main, String name) {
        this.main = main;
        this.name = name;
    }

    /** That of a jar, or null where it names no program. */
    static ProgramEntry of(ZipFile jar) throws IOException {
        ZipEntry manifest = jar.getEntry(JarFile.MANIFEST_NAME);
        if (manifest == null) {
            return null;
        }
        try (InputStream file = jar.getInputStream(manifest)) {
            return of(file);
        }
    }

    /** That of the first manifest among resources that names a program, or null. */
    static ProgramEntry of(ClassLoader resources) throws IOException {
        Enumeration<URL> manifests = resources.getResources(JarFile.MANIFEST_NAME);
        while (manifests.hasMoreElements()) {
            try (InputStream file = manifests.nextElement().openStream()) {
                ProgramEntry entry = of(file);
                if (entry != null) {
                    return entry;
                }
            }
        }
        return null;
    }

    private static ProgramEntry of(InputStream manifest) throws IOException {
        Attributes attributes = new Manifest(manifest).getMainAttributes();
        String main = attributes.getValue(PROGRAM);
        return main == null ? null : new ProgramEntry(main, attributes.getValue(NAME));
    }

    private int start() {
        return main.lastIndexOf('/') + 1;
    }

    /** The folder of the class files, empty or with a slash behind it. */
    String folder() {
        return main.substring(0, start());
    }

    /** The name of the main class. */
    String className() {
        return main.substring(start());
    }

    /** The name of the program. */
    String name() {
        return name == null ? className() : name;
    }
}
