package nestedvm;

import static org.junit.jupiter.api.Assertions.assertEquals;
import static org.junit.jupiter.api.Assertions.assertThrows;
import static org.junit.jupiter.api.Assertions.assertTrue;

import java.io.ByteArrayOutputStream;
import java.io.IOException;
import java.net.URL;
import java.net.URLClassLoader;
import java.nio.charset.StandardCharsets;
import java.nio.file.Files;
import java.nio.file.Path;
import java.util.Arrays;
import java.util.jar.Attributes;
import java.util.jar.JarOutputStream;
import java.util.jar.Manifest;
import java.util.zip.ZipEntry;
import javax.tools.JavaCompiler;
import javax.tools.ToolProvider;
import org.junit.jupiter.api.Assumptions;
import org.junit.jupiter.api.DisplayName;
import org.junit.jupiter.api.Test;
import org.junit.jupiter.api.io.TempDir;
import org.junit.jupiter.params.ParameterizedTest;
import org.junit.jupiter.params.provider.CsvSource;

/** Class files that name what no class of a program names. */
final class ConfinementTests {
    @TempDir
    private Path folder;

    private void compile(String body, String members) throws IOException {
        compile(body, members, "");
    }

    /** Compiles a class Main whose method run has this body, and beside which these members and these classes stand. */
    private void compile(String body, String members, String classes) throws IOException {
        JavaCompiler compiler = ToolProvider.getSystemJavaCompiler();
        Assumptions.assumeTrue(compiler != null, "there is no compiler");
        Path source = folder.resolve("Main.java");
        Files.write(source, Texts.bytes("public final class Main { public static int[][] rd; " + members + " public static void run() {" + body + "} }" + classes));
        int status = compiler.run(null, new ByteArrayOutputStream(), new ByteArrayOutputStream(), "--release", "8", "-proc:none", "-g:none",
            "-cp", System.getProperty("java.class.path"), "-d", folder.toString(), source.toString());
        assertEquals(0, status, "the class is not compiled");
    }

    private String refusal() {
        return assertThrows(IllegalArgumentException.class, () -> Program.inFolder(folder, "Main")).getMessage();
    }

    @ParameterizedTest(name = "{0}")
    @CsvSource(delimiter = '|', value = {
        "System.exit(3);                       | Main names java/lang/System",
        "Runtime.getRuntime().halt(3);         | Main names java/lang/Runtime",
        "new Thread().start();                 | Main names java/lang/Thread",
        "nestedvm.Run.main(null);              | Main names nestedvm/Run",
        "\"a\".intern();                       | Main names java/lang/String.intern",
        "\"a\".getClass();                     | Main names java/lang/Object.getClass",
        "new Object().notify();                | Main names java/lang/Object.notify",
        "int n = rd.clone().length;            | Main names [[I.clone",
        "Object o = new Exception[1];          | Main names java/lang/Exception",
        "Runnable r = () -> { };               | Main has a constant of kind",
        "try { run(); } finally { rd = null; } | Main names java/lang/Throwable",
    })
    @DisplayName("a body of run that names what it may not")
    void bodies(String body, String expected) throws IOException {
        compile(body, "");
        assertTrue(refusal().startsWith(expected), refusal());
    }

    @ParameterizedTest(name = "{0}")
    @CsvSource(delimiter = '|', value = {
        "public static Exception e;                    | Main has a field e that is no public static int",
        "static native void go();                      | Main has a method go that is native",
        "protected void finalize() { while (true) { } } | Main has a method finalize",
        "static void take(Thread t) { }                | Main names java/lang/Thread",
        "private static int kept;                      | Main has a field kept",
        "public static long kept;                      | Main has a field kept",
        "public static String kept;                    | Main has a field kept",
    })
    @DisplayName("members that name what they may not")
    void members(String members, String expected) throws IOException {
        compile("", members);
        assertTrue(refusal().startsWith(expected), refusal());
    }

    @Test
    @DisplayName("a method that catches all")
    void catchesAll() throws IOException {
        compile("try { run(); } finally { rd = null; }", "");
        Path file = folder.resolve("Main.class");
        String bytes = new String(Files.readAllBytes(file), StandardCharsets.ISO_8859_1);
        Files.write(file, bytes.replace("\0\23java/lang/Throwable", "\0\20java/lang/Object").getBytes(StandardCharsets.ISO_8859_1));
        assertEquals("Main has a method run that catches what is thrown", refusal());
    }

    @Test
    @DisplayName("a field of another class than the main one")
    void fieldElsewhere() throws IOException {
        compile("Main_0.kept++;", "", "final class Main_0 { public static int kept; }");
        assertTrue(refusal().startsWith("Main_0 has a field kept"), refusal());
    }

    @Test
    @DisplayName("the same in a jar, and among resources")
    void elsewhere() throws IOException {
        compile("System.exit(3);", "");
        Path jar = folder.resolve("main.jar");
        Manifest manifest = new Manifest();
        manifest.getMainAttributes().put(Attributes.Name.MANIFEST_VERSION, "1.0");
        manifest.getMainAttributes().putValue("Nested-Program", "Main");
        try (JarOutputStream out = new JarOutputStream(Files.newOutputStream(jar), manifest)) {
            out.putNextEntry(new ZipEntry("Main.class"));
            Files.copy(folder.resolve("Main.class"), out);
        }
        IllegalArgumentException inJar = assertThrows(IllegalArgumentException.class, () -> Program.inJar(jar));
        assertTrue(inJar.getMessage().startsWith("Main names java/lang/System"), inJar.getMessage());
        try (URLClassLoader loader = new URLClassLoader(new URL[] {folder.toUri().toURL()}, null)) {
            IllegalArgumentException refused = assertThrows(IllegalArgumentException.class, () -> Program.of(loader, "Main"));
            assertTrue(refused.getMessage().contains("Main names java/lang/System"), refused.getMessage());
        }
    }

    @Test
    @DisplayName("a class of a program that is loaded later")
    void later() throws IOException {
        compile("Main_0.go();", "", "final class Main_0 { static void go() { System.exit(3); } }");
        try (URLClassLoader loader = new URLClassLoader(new URL[] {folder.toUri().toURL()}, null)) {
            Program program = Program.of(loader, "Main");
            LinkageError refused = assertThrows(LinkageError.class, () -> program.call().run());
            assertTrue(refused.getMessage().startsWith("Main_0 names java/lang/System"), refused.getMessage());
        }
        assertTrue(refusal().startsWith("Main_0 names java/lang/System"), refusal());
    }

    @Test
    @DisplayName("what is no class file")
    void noClassFile() throws IOException {
        byte[] file = Files.readAllBytes(Guests.classes("deeds").resolve("Main.class"));
        for (int length = 0; length < file.length; length += 97) {
            Files.write(folder.resolve("Main.class"), Arrays.copyOf(file, length));
            refusal();
        }
        byte[] changed = file.clone();
        for (int place = 8; place < file.length; place += 3) {
            changed[place] ^= 0x55;
            Files.write(folder.resolve("Main.class"), changed);
            try {
                Program.inFolder(folder, "Main");
            } catch (IllegalArgumentException refused) {
                assertTrue(refused.getMessage().contains("Main"), refused.getMessage());
            }
            changed[place] = file[place];
        }
    }

    @Test
    @DisplayName("what a class does that no translated class does")
    void strange() throws IOException {
        compile("Object[] all = new String[1]; all[0] = new Object();", "");
        assertThrows(LinkageError.class, () -> Program.inFolder(folder, "Main").call().run());
    }
}
