package nestedvm;

import static org.junit.jupiter.api.Assertions.assertEquals;
import static org.junit.jupiter.api.Assertions.assertNull;
import static org.junit.jupiter.api.Assertions.assertThrows;

import java.io.IOException;
import java.nio.file.Path;
import java.nio.file.Paths;
import org.junit.jupiter.api.DisplayName;
import org.junit.jupiter.api.Test;
import org.junit.jupiter.api.condition.EnabledIfSystemProperty;

/** A program in a jar that {@code jvm/package} has made of the guest deeds, which is on the class path as well. The property has its folder. */
@EnabledIfSystemProperty(named = "nested.jars", matches = ".+", disabledReason = "jvm/try makes the jars")
final class JarTests {
    private static Path jar(String name) {
        return Paths.get(System.getProperty("nested.jars"), name);
    }

    @Test
    @DisplayName("a program in a jar")
    void inJar() throws IOException {
        Program program = Program.inJar(jar("deeds.jar"));
        assertEquals("deeds", program.name());
        assertEquals("deeds\n1\n", Texts.text(program.call("name", "count").run().output()));
    }

    @Test
    @DisplayName("a program on the class path")
    void onClassPath() {
        Program program = Program.of(JarTests.class.getClassLoader(), "deeds/Deeds");
        assertEquals("Deeds\n1\n", Texts.text(program.call("name", "count").run().output()));
    }

    @Test
    @DisplayName("a program whose first copy the loader of the application loads, twice")
    void byApplication() throws ClassNotFoundException {
        ClassLoader loader = JarTests.class.getClassLoader();
        Class<?> main = Class.forName("Deeds", false, loader);
        Program first = Program.ofClassPath(loader, "deeds/Deeds");
        Program second = Program.ofClassPath(loader, "deeds/Deeds");
        assertNull(LoadedClasses.take(loader, "Deeds"), "the class serves nobody");
        for (int i = 0; i < 2; i++) {
            assertEquals("Deeds\n1\n", Texts.text(first.call("name", "count").run().output()));
            assertEquals("1\n2\n", Texts.text(second.call("count", "count").run().output()));
        }
        assertEquals(loader, main.getClassLoader());
    }

    @Test
    @DisplayName("where the loader has no such class the program is that of the resources")
    void notByApplication() {
        Program program = Program.ofClassPath(new ClassLoader(JarTests.class.getClassLoader()) {
            @Override
            protected Class<?> loadClass(String name, boolean resolve) throws ClassNotFoundException {
                if (name.equals("Deeds")) {
                    throw new ClassNotFoundException(name);
                }
                return super.loadClass(name, resolve);
            }
        }, "deeds/Deeds");
        assertEquals("1\n", Texts.text(program.call("count").run().output()));
        assertThrows(IllegalArgumentException.class, () -> Program.ofClassPath(JarTests.class.getClassLoader(), "deeds/Other"));
    }

    @Test
    @DisplayName("a jar without a program")
    void withoutProgram() {
        assertThrows(IllegalArgumentException.class, () -> Program.inJar(jar("nestedvm.jar")));
    }
}
