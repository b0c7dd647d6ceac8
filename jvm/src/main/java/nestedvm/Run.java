package nestedvm;

import java.util.List;

/**
 * Runs the class NAME of the folder in which it was started, as {@code nested run NAME} does, but on this JVM:
 * {@code java -cp jvm/target/classes nestedvm.Run NAME [--disk N] [--with A,B] [--keep A,B] [-- ARGS]}.
 *
 * <p>It ends with the status of {@code nested run}, after the same line on error output. docs/HOST.md says where a JVM differs.
 */
public final class Run {
    private Run() {
    }

    /**
     * Runs a class, and ends the process.
     *
     * @param words the words of the command line
     */
    public static void main(String[] words) {
        long moment = Math.max(System.currentTimeMillis() / 1000, 0);
        Console console = Console.ofProcess();
        Answer answer = console.tell(perform(words, moment, console));
        System.exit(answer.status());
    }

    /** Does all work but that of telling the answer. */
    private static Answer perform(String[] given, long moment, Console console) {
        try {
            Words words = new Words(given);
            Copy copy = copyOf(words.name());
            GuestFiles files = new GuestFiles(words.disk(), HostFiles.ofProcess());
            GuestSystem system = new GuestSystem(console, files, Arguments.of(words.name(), words.arguments()), () -> moment);
            addFiles(files, words);
            new Flusher(console).start();
            Answer answer = copy.run(system);
            console.flush();
            keep(files, words.keep());
            return answer;
        } catch (Stopped stopped) {
            return stopped.answer();
        } catch (LinkageError error) {
            return Answer.refused(error);
        } catch (OutOfMemoryError failure) {
            return Answer.noMemory();
        }
    }

    /** The class with which the guest begins, loaded and verified. */
    private static Copy copyOf(String name) {
        try {
            return new Copy(Folder.CLASSES, name, Images.NONE);
        } catch (ClassNotFoundException missing) {
            throw new Stopped(Answer.noFile(name + ".class"));
        } catch (ReflectiveOperationException missing) {
            throw new Stopped(Answer.linkRefused(missing.toString()));
        }
    }

    private static void addFiles(GuestFiles files, Words words) {
        for (String name : words.with()) {
            byte[] content = Folder.load(name);
            if (content == null) {
                throw new Stopped(Answer.noFile(name));
            }
            files.add(Names.pathOf(name), content);
        }
    }

    /** Stores the files of these names that the guest has. */
    private static void keep(GuestFiles files, List<String> names) {
        for (String name : names) {
            byte[] content = files.contentOf(Names.pathOf(name));
            if (content != null) {
                Folder.store(name, content);
            }
        }
    }
}
