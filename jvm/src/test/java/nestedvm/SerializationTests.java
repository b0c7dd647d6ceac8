package nestedvm;

import static org.junit.jupiter.api.Assertions.assertEquals;
import static org.junit.jupiter.api.Assertions.assertSame;
import static org.junit.jupiter.api.Assertions.assertThrows;
import static org.junit.jupiter.api.Assertions.assertTrue;

import java.io.ByteArrayInputStream;
import java.io.ByteArrayOutputStream;
import java.io.File;
import java.io.IOException;
import java.io.InvalidObjectException;
import java.io.NotSerializableException;
import java.io.ObjectInputStream;
import java.io.ObjectOutputStream;
import java.io.OutputStream;
import java.net.URL;
import java.net.URLClassLoader;
import java.nio.file.Path;
import java.util.concurrent.Callable;
import org.junit.jupiter.api.DisplayName;
import org.junit.jupiter.api.Test;

/** Programs in streams of objects: what is written is the name of their resources. */
final class SerializationTests {
    private final Path classes = Guests.classes("deeds");

    SerializationTests() throws IOException {
    }

    private static byte[] written(Object object) throws IOException {
        ByteArrayOutputStream bytes = new ByteArrayOutputStream();
        new ObjectOutputStream(bytes).writeObject(object);
        return bytes.toByteArray();
    }

    private static Object read(byte[] bytes) throws IOException, ClassNotFoundException {
        return new ObjectInputStream(new ByteArrayInputStream(bytes)).readObject();
    }

    /** Runs a test in a thread whose context class loader finds the classes of the guest. */
    private <T> T withResources(Callable<T> test) throws Exception {
        Thread thread = Thread.currentThread();
        ClassLoader before = thread.getContextClassLoader();
        try (URLClassLoader resources = new URLClassLoader(new URL[] {classes.toUri().toURL()}, before)) {
            thread.setContextClassLoader(resources);
            return test.call();
        } finally {
            thread.setContextClassLoader(before);
        }
    }

    private static Program onContext() {
        return Program.of(Thread.currentThread().getContextClassLoader(), "Main");
    }

    @Test
    @DisplayName("a program that is read twice is one program")
    void oneProgram() throws Exception {
        withResources(() -> {
            byte[] bytes = written(onContext());
            assertTrue(bytes.length < 200, "classes are not written");
            Program program = (Program) read(bytes);
            assertEquals("Main", program.name());
            assertSame(program, read(bytes));
            return program.call("work", "one").run().orThrow();
        });
    }

    @Test
    @DisplayName("two virtual machines")
    void twoMachines() throws Exception {
        byte[] bytes = withResources(() -> written(onContext()));
        String path = System.getProperty("java.class.path") + File.pathSeparator + classes;
        String java = System.getProperty("java.home") + "/bin/java";
        Process process = new ProcessBuilder(java, "-cp", path, CallsWhatItReads.class.getName(), "2")
            .redirectError(ProcessBuilder.Redirect.INHERIT).start();
        try (OutputStream input = process.getOutputStream()) {
            input.write(bytes);
            input.write(bytes);
        }
        assertEquals("1\nMain\ntrue\n1\nMain\ntrue\n", Texts.text(WholeStream.of(process.getInputStream())));
        assertEquals(0, process.waitFor());
    }

    @Test
    @DisplayName("where there are no such resources")
    void withoutResources() throws Exception {
        byte[] bytes = withResources(() -> written(onContext()));
        InvalidObjectException thrown = assertThrows(InvalidObjectException.class, () -> read(bytes));
        assertEquals("there is no program Main where this is read", thrown.getMessage());
    }

    @Test
    @DisplayName("a program of a folder")
    void ofFolder() throws IOException {
        Program program = Guests.program("deeds");
        assertThrows(NotSerializableException.class, () -> written(program));
    }
}
