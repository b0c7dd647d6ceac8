import java.nio.file.Paths;
import java.util.ArrayList;
import java.util.List;
import nestedvm.Library;
import nestedvm.Program;

/** Prints how much memory of Java a library takes that is open, and one that was closed while its classes are kept: its argument is a folder of classes. */
public final class InstanceMemory {
    private static final int INSTANCES = 20;

    private InstanceMemory() {
    }

    /**
     * Prints it.
     *
     * @param arguments the folder
     * @throws Exception where the program cannot be run
     */
    public static void main(String[] arguments) throws Exception {
        Program program = Program.inFolder(Paths.get(arguments[0]), "Main").keepCopies(INSTANCES);
        program.call().library().close();
        long before = used();
        List<Library> open = new ArrayList<>();
        for (int i = 0; i < INSTANCES; i++) {
            open.add(program.call().library());
        }
        long full = used();
        open.forEach(Library::close);
        System.out.printf("an open library %d KB, a closed one whose classes are kept %d KB%n", kilobytes(full - before), kilobytes(used() - before));
    }

    private static long kilobytes(long bytes) {
        return bytes / INSTANCES / 1024;
    }

    private static long used() throws InterruptedException {
        for (int i = 0; i < 3; i++) {
            System.gc();
            Thread.sleep(50);
        }
        return Runtime.getRuntime().totalMemory() - Runtime.getRuntime().freeMemory();
    }
}
