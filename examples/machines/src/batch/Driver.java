package batch;

import java.io.IOException;
import java.io.ObjectOutputStream;
import java.nio.file.Files;
import java.nio.file.Paths;
import java.util.Arrays;
import nestedvm.Program;

/** Makes a task and writes it to a file, which goes to all executors. */
public final class Driver {
    private Driver() {
    }

    /**
     * Writes a task.
     *
     * @param words the file, the resource of the program's main class, and arguments of the program
     * @throws IOException if the file cannot be written
     */
    public static void main(String[] words) throws IOException {
        Program program = Program.of(Driver.class.getClassLoader(), words[1]);
        try (ObjectOutputStream stream = new ObjectOutputStream(Files.newOutputStream(Paths.get(words[0])))) {
            stream.writeObject(new Task(program, Arrays.copyOfRange(words, 2, words.length)));
        }
    }
}
