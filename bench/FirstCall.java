import java.io.File;
import java.lang.management.ManagementFactory;
import java.nio.charset.StandardCharsets;
import java.nio.file.Files;
import java.nio.file.Path;
import java.nio.file.Paths;
import java.util.List;
import nestedvm.Call;
import nestedvm.Program;

/**
 * Prints the milliseconds of processor time that a process has taken when it has called a program for the first time. Its words are {@code of} or
 * {@code ofClassPath}, by which the program {@code Main} of the class path is made, and a folder that {@code jvm/prepare-cases} has made.
 */
public final class FirstCall {
    private FirstCall() {
    }

    /**
     * Makes the call.
     *
     * @param words the way and the folder
     * @throws Exception where the program cannot be run
     */
    public static void main(String[] words) throws Exception {
        ClassLoader loader = FirstCall.class.getClassLoader();
        Program program = words[0].equals("of") ? Program.of(loader, "Main") : Program.ofClassPath(loader, "Main");
        Path folder = Paths.get(words[1]);
        List<String> arguments = Files.readAllLines(folder.resolve("args"), StandardCharsets.UTF_8);
        Call call = program.call(arguments.toArray(new String[0])).input(Files.readAllBytes(folder.resolve("stdin")));
        for (File file : folder.resolve("with").toFile().listFiles()) {
            call.file(file.getName(), Files.readAllBytes(file.toPath()));
        }
        call.run();
        com.sun.management.OperatingSystemMXBean process = (com.sun.management.OperatingSystemMXBean) ManagementFactory.getOperatingSystemMXBean();
        System.out.println(process.getProcessCpuTime() / 1_000_000);
    }
}
