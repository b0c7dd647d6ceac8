package nestedvm;

import java.io.IOException;
import java.util.Arrays;

/**
 * The main class of a jar that {@code jvm/package} has made: {@code java -jar NAME.jar ARGUMENTS} runs its program as a process.
 *
 * <p>The program has the streams of the process, and the files of the folder in which it is started; an absolute name stands for
 * itself. The process ends with the program's status, or as docs/ANSWERS.md says of {@code nested run}.
 */
public final class Tool {
    /**
     * The property by which the command that {@code jvm/package} has made tells that the classes of the program stand on the class path as well, so that
     * they come from a shared archive.
     */
    private static final String START = "nestedvm.start";

    private Tool() {
    }

    /**
     * Runs the program, and ends the process.
     *
     * @param arguments the arguments behind argument 0
     * @throws IOException where the manifest cannot be read
     */
    public static void main(String[] arguments) throws IOException {
        ProgramEntry program = ProgramEntry.of(Tool.class.getClassLoader());
        Console console = Console.ofProcess();
        Answer answer = console.tell(program == null ? Answer.noFile("program") : perform(program, arguments, console));
        System.exit(answer.status());
    }

    private static Answer perform(ProgramEntry program, String[] arguments, Console console) {
        try {
            Copy copy = copyOf(program);
            GuestFiles files = new GuestFiles(GuestFiles.MOST_BLOCKS, LiveFolder.ofProcess(), HostFiles.ofProcess());
            long moment = System.currentTimeMillis() / 1000;
            GuestSystem system = new GuestSystem(console, files, Arguments.of(program.name(), Arrays.asList(arguments)), () -> moment);
            new Flusher(console).start();
            Answer answer = copy.run(system);
            console.flush();
            files.closeAll();
            return answer;
        } catch (Stopped stopped) {
            return stopped.answer();
        } catch (LinkageError error) {
            return Answer.refused(error);
        } catch (OutOfMemoryError failure) {
            return Answer.noMemory();
        }
    }

    private static Copy copyOf(ProgramEntry program) {
        try {
            if (Boolean.getBoolean(START)) {
                return new Copy(Class.forName(program.className(), true, Tool.class.getClassLoader()), Images.NONE);
            }
            return new Copy(new ResourceSource(Tool.class.getClassLoader(), program.folder()), program.className(), Images.NONE);
        } catch (ReflectiveOperationException missing) {
            throw new Stopped(Answer.linkRefused(missing.toString()));
        }
    }
}
