package nestedvm;

import static org.junit.jupiter.api.Assumptions.assumeTrue;

import java.io.File;
import java.io.IOException;
import java.nio.file.Files;
import java.nio.file.Path;
import java.nio.file.Paths;
import java.util.ArrayList;
import java.util.Arrays;
import java.util.List;

/**
 * The programs of the tests: those of {@code jvm/guests}, which the program {@code nested} translates when a test first asks for them. The variable
 * NESTED names it, unless it stands in {@code crates/nested/out}. Where there is none the test is left out.
 */
final class Guests {
    /** The top of the repository. */
    static final Path TOP = top();

    private static final Path NESTED = nested();

    private Guests() {
    }

    private static Path top() {
        Path folder = Paths.get("").toAbsolutePath();
        while (folder != null && !Files.exists(folder.resolve("jvm/guests"))) {
            folder = folder.getParent();
        }
        if (folder == null) {
            throw new IllegalStateException("the tests are run in a folder of the repository");
        }
        return folder;
    }

    private static Path nested() {
        String named = System.getenv("NESTED");
        return named == null ? TOP.resolve("crates/nested/out/nested") : Paths.get(named).toAbsolutePath();
    }

    /** A program whose main class is Main, translated with options of {@code nested translate}. */
    static Program program(String guest, String... options) throws IOException {
        return Program.inFolder(classes(guest, options), "Main");
    }

    /** A program in a file that stands elsewhere, whose main class is Main, translated in the same way. */
    static Program program(Path file, String... options) throws IOException {
        return Program.inFolder(classes(file, options), "Main");
    }

    /** The folder of the classes of a program, translated with options of {@code nested translate}. */
    static Path classes(String guest, String... options) throws IOException {
        return classes(TOP.resolve("jvm/guests").resolve(guest), options);
    }

    private static synchronized Path classes(Path file, String... options) throws IOException {
        assumeTrue(Files.isExecutable(NESTED), "there is no program " + NESTED);
        Path folder = TOP.resolve("jvm/target/guests").resolve(file.getFileName() + String.join("", options));
        File program = file.toFile();
        File main = folder.resolve("Main.class").toFile();
        if (main.lastModified() < Math.max(program.lastModified(), NESTED.toFile().lastModified())) {
            translate(program, Files.createDirectories(folder), options);
        }
        return folder;
    }

    private static void translate(File program, Path folder, String... options) throws IOException {
        List<String> command = new ArrayList<>(Arrays.asList(NESTED.toString(), "translate", program.toString(), "--method-bytes", "4096"));
        command.addAll(Arrays.asList(options));
        Process process = new ProcessBuilder(command).directory(folder.toFile()).redirectErrorStream(true).start();
        try {
            String said = Texts.text(WholeStream.of(process.getInputStream()));
            if (process.waitFor() != 0) {
                throw new IOException(program + " is not translated: " + said);
            }
        } catch (InterruptedException interrupt) {
            throw new IOException(interrupt);
        }
    }
}
