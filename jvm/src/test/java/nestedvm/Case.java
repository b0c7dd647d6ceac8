package nestedvm;

import static org.junit.jupiter.api.Assertions.assertArrayEquals;
import static org.junit.jupiter.api.Assertions.assertEquals;
import static org.junit.jupiter.api.Assertions.assertFalse;
import static org.junit.jupiter.api.Assertions.assertTrue;

import java.io.File;
import java.io.IOException;
import java.nio.file.Files;
import java.nio.file.Path;

/** A program from elsewhere, in a folder that {@code prepare-cases} has made: it does what {@code nested interp} does with it. */
final class Case {
    /** The instructions of a slice that is no small one. */
    private static final int LARGE = 1_000_000;

    /** The most small slices of a run. */
    private static final int MOST_SLICES = 100_000;

    /** At how many places it is moved. */
    private static final int STOPS = 10;

    /** The calls at which it is left. */
    private static final int MOST_MOVES = 100;

    private final Path folder;

    Case(Path folder) {
        this.folder = folder;
    }

    private byte[] bytes(String name) throws IOException {
        return Files.readAllBytes(folder.resolve(name));
    }

    private File[] files(String part) {
        return folder.resolve(part).toFile().listFiles();
    }

    /** The program in classes of its own, with a meter or without. */
    private Program program(boolean isMetered) throws IOException {
        return Program.inFolder(folder.resolve(isMetered ? "metered" : "work"), "Main");
    }

    private Call call(Program program) throws IOException {
        String words = Texts.text(bytes("args"));
        String[] arguments = words.isEmpty() ? new String[0] : words.substring(0, words.length() - 1).split("\n", -1);
        return program.call(arguments).input(bytes("stdin"));
    }

    private Call callWithFiles(Program program) throws IOException {
        Call call = call(program);
        for (File file : files("with")) {
            call.file(file.getName(), Files.readAllBytes(file.toPath()));
        }
        return call;
    }

    private void compare(Result result) throws IOException {
        String line = result.line().isEmpty() ? "" : "nested: " + result.line() + "\n";
        assertEquals(Texts.text(bytes("status")), Integer.toString(result.status()));
        assertArrayEquals(bytes("stdout"), result.output(), "another output");
        assertEquals(Texts.text(bytes("stderr")), Texts.text(result.errorOutput()) + line);
    }

    void inMemory() throws IOException {
        compareAll(callWithFiles(program(false)).run());
    }

    private void compareAll(Result result) throws IOException {
        compare(result);
        for (File file : files("keep")) {
            assertArrayEquals(Files.readAllBytes(file.toPath()), result.file(file.getName()), "another file " + file.getName());
        }
    }

    void inFolder() throws IOException {
        Path work = Files.createTempDirectory("nested-case");
        for (File file : files("with")) {
            Files.copy(file.toPath(), work.resolve(file.getName()));
        }
        compare(call(program(false)).folder(work, FolderAccess.READ_AND_WRITE).run());
        for (File file : files("keep")) {
            assertArrayEquals(Files.readAllBytes(file.toPath()), Files.readAllBytes(work.resolve(file.getName())), "another file " + file.getName());
        }
    }

    /** The number of its instructions, by a run in large slices; it is the one that the list has, where it has one. */
    private long count() throws IOException {
        Execution execution = callWithFiles(program(true)).start();
        while (execution.runFor(LARGE)) {
            assertTrue(execution.instructions() > 0, "no instruction was made");
        }
        compareAll(execution.result());
        if (Files.exists(folder.resolve("instructions"))) {
            assertEquals(Texts.text(bytes("instructions")), Long.toString(execution.instructions()));
        }
        return execution.instructions();
    }

    /** Its first part is run in many slices of one size, and the rest in large ones. */
    void inSlices() throws IOException {
        long count = count();
        for (int size : new int[] {1, 2, 3, 100}) {
            Execution execution = callWithFiles(program(true)).start();
            int slices = 0;
            while (execution.runFor(slices < MOST_SLICES ? size : LARGE)) {
                slices++;
            }
            compareAll(execution.result());
            assertEquals(count, execution.instructions());
        }
    }

    /** It is moved into new classes at ten places, and from each of these into some without a meter as well. */
    void moved() throws IOException {
        long count = count();
        Execution execution = callWithFiles(program(true)).start();
        for (int stop = 1; stop <= STOPS; stop++) {
            assertTrue(execution.runFor(count / (STOPS + 1)), "it ended too early");
            execution = moved(execution);
        }
        compareAll(program(false).call(execution.snapshot()).run());
        assertFalse(execution.runFor(Long.MAX_VALUE));
        compareAll(execution.result());
        assertEquals(count, execution.instructions());
    }

    /** It is left at each of its first calls, and goes on in new classes. */
    void leftAtCalls() throws IOException {
        Execution execution = callWithFiles(program(true)).start();
        int moves = 0;
        while (moves < MOST_MOVES && execution.runToCall()) {
            execution = moved(execution);
            moves++;
        }
        execution.runFor(Long.MAX_VALUE);
        compareAll(execution.result());
    }

    /** What was run up to here goes on in classes of its own, from the bytes of a snapshot. */
    private Execution moved(Execution execution) throws IOException {
        byte[] snapshot = execution.snapshot().bytes();
        execution.close();
        return program(true).call(Snapshot.of(snapshot)).start();
    }
}
