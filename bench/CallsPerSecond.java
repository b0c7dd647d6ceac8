import java.io.File;
import java.io.IOException;
import java.nio.charset.StandardCharsets;
import java.nio.file.Files;
import java.nio.file.Path;
import java.util.ArrayList;
import java.util.Arrays;
import java.util.List;
import java.util.concurrent.Callable;
import java.util.concurrent.TimeUnit;
import nestedvm.Call;
import nestedvm.Program;

/**
 * Times calls of programs, in folders that {@code jvm/prepare-cases} has made: how many a second one thread makes once the program is
 * warm, and how many processes of the launcher run one after the other.
 */
public final class CallsPerSecond {
    private static final long WARM_NANOS = TimeUnit.SECONDS.toNanos(10);
    private static final long TIMED_NANOS = TimeUnit.SECONDS.toNanos(5);

    private final Path folder;
    private final List<String> arguments;
    private final byte[] input;

    private CallsPerSecond(Path folder) throws IOException {
        this.folder = folder;
        this.arguments = Files.readAllLines(folder.resolve("args"), StandardCharsets.UTF_8);
        this.input = Files.readAllBytes(folder.resolve("stdin"));
    }

    /**
     * Prints a line for each case.
     *
     * @param words the folder of the cases, and the class path of the launcher
     * @throws Exception where a program cannot be run
     */
    public static void main(String[] words) throws Exception {
        File[] folders = new File(words[0]).listFiles();
        Arrays.sort(folders);
        for (File folder : folders) {
            CallsPerSecond calls = new CallsPerSecond(folder.toPath());
            Callable<Integer> call = calls.call();
            perSecond(call, WARM_NANOS);
            double warm = perSecond(call, TIMED_NANOS);
            double launched = perSecond(() -> calls.launch(words[1]), TIMED_NANOS);
            System.out.printf("%s: %.1f calls a second in a warm program, %.2f by the launcher%n", folder.getName(), warm, launched);
        }
    }

    private File[] files() {
        return folder.resolve("with").toFile().listFiles();
    }

    private Callable<Integer> call() throws IOException {
        Program program = Program.inFolder(folder.resolve("work"), "Main");
        Call call = program.call(arguments.toArray(new String[0])).input(input);
        for (File file : files()) {
            call.file(file.getName(), Files.readAllBytes(file.toPath()));
        }
        return () -> call.run().status();
    }

    private int launch(String classPath) throws IOException, InterruptedException {
        List<String> command = new ArrayList<>(Arrays.asList("java", "-cp", classPath, "nestedvm.Run", "Main"));
        if (files().length > 0) {
            command.add("--with");
            command.add(String.join(",", new File(folder.toFile(), "with").list()));
        }
        command.add("--");
        command.addAll(arguments);
        File nothing = new File("/dev/null");
        return new ProcessBuilder(command).directory(folder.resolve("work").toFile()).redirectInput(folder.resolve("stdin").toFile())
            .redirectOutput(nothing).redirectError(nothing).start().waitFor();
    }

    /** Makes calls for so long, and at least one. Each has the status that is wanted. */
    private static double perSecond(Callable<Integer> call, long nanos) throws Exception {
        int wanted = call.call();
        long start = System.nanoTime();
        int count = 0;
        while (count == 0 || System.nanoTime() - start < nanos) {
            if (call.call() != wanted) {
                throw new IllegalStateException("a call ended with another status");
            }
            count++;
        }
        return count * 1e9 / (System.nanoTime() - start);
    }
}
