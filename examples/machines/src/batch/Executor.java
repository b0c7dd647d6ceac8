package batch;

import java.io.ObjectInputStream;
import java.nio.file.Files;
import java.nio.file.Path;
import java.nio.file.Paths;
import java.util.ArrayList;
import java.util.List;
import java.util.concurrent.ExecutorService;
import java.util.concurrent.Executors;
import java.util.concurrent.Future;

/** A process that does its part of a batch: one program, called by several threads. */
public final class Executor {
    private Executor() {
    }

    /**
     * Performs a task over files, and writes what comes of each to a folder, under the same name.
     *
     * @param words the file of the task, the folder, the number of threads, and the files
     * @throws Exception if a file cannot be read or written, or the program fails
     */
    public static void main(String[] words) throws Exception {
        Task task;
        try (ObjectInputStream stream = new ObjectInputStream(Files.newInputStream(Paths.get(words[0])))) {
            task = (Task) stream.readObject();
        }
        Path folder = Paths.get(words[1]);
        ExecutorService threads = Executors.newFixedThreadPool(Integer.parseInt(words[2]));
        List<Future<Path>> results = new ArrayList<>();
        for (int i = 3; i < words.length; i++) {
            Path file = Paths.get(words[i]);
            results.add(threads.submit(() -> Files.write(folder.resolve(file.getFileName()), task.perform(Files.readAllBytes(file)))));
        }
        for (Future<Path> result : results) {
            result.get();
        }
        threads.shutdown();
    }
}
