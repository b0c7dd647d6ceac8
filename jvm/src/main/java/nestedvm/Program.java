package nestedvm;

import java.io.IOException;
import java.io.InvalidObjectException;
import java.io.NotSerializableException;
import java.io.ObjectInputStream;
import java.io.ObjectStreamException;
import java.io.Serializable;
import java.nio.file.Path;
import java.util.Objects;
import java.util.zip.ZipFile;

/**
 * A translated program, which Java calls as it calls any object. It is made once, and called any number of times, by several threads at
 * once.
 *
 * <p>Each call has memory, files and streams of its own, and runs in the thread that makes it. Behind a program stand copies of its classes, one
 * for each call that runs at the same time. A copy is used again, so its code is compiled once: the first calls of a program are slow and later
 * ones fast. At most as many idle copies are kept as there are processors. A call leaves no thread, no open file and nothing
 * in the copy.
 *
 * <p>A program whose classes are resources, by {@link #of}, goes into a stream of objects as the name of its main class. Where it is read, the classes
 * are resources of the thread's context class loader, or of the one that loaded this class where a thread has none. All that read it there have one
 * program, with its copies, which is kept until memory is short.
 */
public final class Program implements Serializable {
    private static final long serialVersionUID = 1;

    private final transient ClassSource source;
    private final transient String className;
    private final transient String name;
    private final transient Images images;
    private transient Functions functions;
    private final transient CopyPool pool = new CopyPool();

    private Program(ClassSource source, String className, String name) {
        this(source, className, name, null);
    }

    /** A program whose first copy has classes of a loader, where this has them and no other program uses them. */
    private Program(ClassSource source, String className, String name, ClassLoader first) {
        this.source = source;
        this.className = className;
        this.name = name;
        this.images = new Images(source.find(className));
        Class<?> main = first == null ? null : LoadedClasses.take(first, className);
        pool.put(copyOf(main));
    }

    /**
     * The program whose class files are resources of a class loader, as in a jar on the class path. They are read as they are first used.
     *
     * @param resources the class loader
     * @param main the resource of the main class without {@code .class}, as {@code bzip2/Bzip2}; the other classes stand beside it
     * @return the program
     * @throws IllegalArgumentException where there is no such class, or it is no main class of a program, or it names other classes than {@code Object},
     *     {@code String}, {@code Host} and those of the program. Of a further class that is told when it is first used, by a {@link LinkageError}
     */
    public static Program of(ClassLoader resources, String main) {
        int start = main.lastIndexOf('/') + 1;
        String className = main.substring(start);
        return new Program(new ResourceSource(resources, main.substring(0, start)), className, className);
    }

    /**
     * The same as {@link #of}, but the classes of its first copy are those that the class loader itself loads, where they stand at the top of the class path as
     * well: {@code jvm/package} makes {@code NAME.start} for that. The virtual machine takes such classes from a shared archive, if it has one, so that the
     * first call takes a part of the time. They are not held to what classes of a program may name, so this is for programs that are trusted as the
     * application's own classes are. Where there are no such classes, or another program uses them, this is {@code of}.
     *
     * @param loader the class loader, as that of the application
     * @param main the resource of the main class without {@code .class}, as {@code bzip2/Bzip2}, whose class there is {@code Bzip2}
     * @return the program
     * @throws IllegalArgumentException as {@link #of}
     */
    public static Program ofClassPath(ClassLoader loader, String main) {
        int start = main.lastIndexOf('/') + 1;
        String className = main.substring(start);
        return new Program(new ResourceSource(loader, main.substring(0, start)), className, className, loader);
    }

    /**
     * The program whose class files are in a folder, as {@code nested translate} leaves them. All of them are read now.
     *
     * @param folder the folder
     * @param className the name of the main class
     * @return the program
     * @throws IOException where the folder or a file cannot be read
     * @throws IllegalArgumentException where there is no such class, or it is no main class of a program, or where a class of the program names others
     *     than {@code Object}, {@code String}, {@code Host} and classes of the program
     */
    public static Program inFolder(Path folder, String className) throws IOException {
        return new Program(accepted(() -> StoredSource.ofFolder(folder, className)), className, className);
    }

    /**
     * The program of a jar that {@code jvm/package} has made. Its class files are read now, and the jar is closed.
     *
     * @param jar the jar
     * @return the program
     * @throws IOException where the jar cannot be read
     * @throws IllegalArgumentException where its manifest names no program, or as {@link #inFolder}
     */
    public static Program inJar(Path jar) throws IOException {
        try (ZipFile file = new ZipFile(jar.toFile())) {
            ProgramEntry entry = ProgramEntry.of(file);
            if (entry == null) {
                throw new IllegalArgumentException(jar + " names no program");
            }
            ClassSource classes = accepted(() -> StoredSource.ofJar(file, entry.folder(), entry.className()));
            return new Program(classes, entry.className(), entry.name());
        }
    }

    private interface Reading {
        ClassSource read() throws IOException;
    }

    private static ClassSource accepted(Reading reading) throws IOException {
        try {
            return reading.read();
        } catch (LinkageError refused) {
            throw new IllegalArgumentException(refused.getMessage(), refused);
        }
    }

    /**
     * The name of the program, which is argument 0 of its calls.
     *
     * @return the name of the main class, or the one that the jar names
     */
    public String name() {
        return name;
    }

    /**
     * How many copies of the classes are kept for further calls.
     *
     * @param most the most copies that are kept while they make no call: at first as many as there are processors, and two at least
     * @return this
     * @throws IllegalArgumentException where the number is negative
     */
    public Program keepCopies(int most) {
        if (most < 0) {
            throw new IllegalArgumentException("the most copies that are kept are no negative number, as " + most);
        }
        pool.keep(most);
        return this;
    }

    /**
     * A call of the program that is to be made.
     *
     * @param arguments the arguments behind argument 0, which go to the program in UTF-8. With argument 0 they may need at most 4,096 bytes: the
     *     bytes of each and five more, and four beside
     * @return the call, which {@link Call#run} makes
     * @throws IllegalArgumentException where an argument has a character 0
     */
    public Call call(String... arguments) {
        return new Call(this, arguments);
    }

    /**
     * A call that goes on where a stopped run of this program stood. It chooses streams, a folder, a clock, and bounds of instructions and time anew; input
     * comes behind what the snapshot has of it, and gathered output behind the snapshot's, which the result has also where an output has a stream.
     *
     * @param snapshot the state of the run. It stays as it is, and may be used again
     * @return the call: {@link Call#run} makes the rest of it, and {@link Call#start} slices where this program is metered. Both throw an
     *     {@code IllegalArgumentException} where the snapshot is one of another program, or has pages or a program break that this one cannot have. Methods
     *     for what the snapshot has, as {@link Call#file} and {@link Call#heap}, throw an {@code IllegalStateException}
     */
    public Call call(Snapshot snapshot) {
        return new Call(this, Objects.requireNonNull(snapshot));
    }

    /**
     * What stands for this program in a stream of objects: the name of its main class.
     *
     * @return the name
     * @throws ObjectStreamException where the classes are no resources of a class loader
     */
    private Object writeReplace() throws ObjectStreamException {
        if (source instanceof ResourceSource) {
            return new ProgramName(((ResourceSource) source).folder() + className);
        }
        throw new NotSerializableException(name + ": only a program whose classes are resources of a class loader is written to a stream of objects");
    }

    /**
     * Refuses a program that did not go into the stream by its name.
     *
     * @param stream is not read
     * @throws InvalidObjectException always
     */
    private void readObject(ObjectInputStream stream) throws InvalidObjectException {
        throw new InvalidObjectException("a program is read by its name");
    }

    /** A copy that makes no run, which {@link #putBack} takes back. */
    Copy takeCopy() {
        Copy copy = pool.take();
        return copy == null ? newCopy() : copy;
    }

    private Copy newCopy() {
        return copyOf(null);
    }

    /** A copy with a main class that is loaded already, or with classes of its own where it is null. */
    private Copy copyOf(Class<?> loaded) {
        try {
            return loaded == null ? new Copy(source, className, images) : new Copy(loaded, images);
        } catch (ReflectiveOperationException | LinkageError refused) {
            throw new IllegalArgumentException(className + " is no main class of a program: " + refused.getMessage(), refused);
        }
    }

    /** The functions that the program tells, read when they are first asked for. */
    synchronized Functions functions() {
        if (functions == null) {
            functions = new Functions(source.findSymbols(className));
        }
        return functions;
    }

    /** Runs a copy of the program in this thread, over a system. */
    Answer play(GuestSystem system) {
        Copy copy = takeCopy();
        try {
            return copy.runAndForget(system);
        } catch (Stopped stopped) {
            return stopped.answer();
        } finally {
            putBack(copy);
        }
    }

    /** Takes a copy back that makes no run any longer, and whose fields are as new. */
    void putBack(Copy copy) {
        pool.put(copy);
    }
}
