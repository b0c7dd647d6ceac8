package nestedvm;

import java.io.InputStream;
import java.io.OutputStream;
import java.nio.file.Path;
import java.time.Clock;
import java.time.Duration;
import java.time.Instant;
import java.time.ZoneOffset;
import java.util.ArrayList;
import java.util.Arrays;
import java.util.Collections;
import java.util.LinkedHashMap;
import java.util.List;
import java.util.Map;
import java.util.Objects;
import java.util.Random;

/**
 * A call of a program that is to be made: its arguments, its streams, its files and its moment.
 *
 * <p>It begins with no input, outputs that the {@link Result} gathers, no files, no folder, a disk of 65,536 blocks and the present moment. Each
 * method but {@link #run} and {@link #library} changes that and gives this object back. A call may be run several times, one after the other;
 * it is for one thread at a time.
 */
public final class Call {
    private static final byte[] NOTHING = {};
    private static final int LONGEST_NAME = 255;
    private static final int MOST_HEAP_PAGES = 32_768;
    private static final int DEFAULT_OUTPUT_BYTES = 67_108_864;

    private final Program program;
    private final String[] arguments;

    /** The snapshot with which the call goes on, or null. */
    private final Snapshot snapshot;

    private final Map<String, byte[]> files = new LinkedHashMap<>();
    private final Map<String, String> environment = new LinkedHashMap<>();
    private String name;
    private byte[] inputBytes = NOTHING;
    private InputStream input;
    private OutputStream output;
    private OutputStream errorOutput;
    private Path folder;
    private FolderAccess access;
    private int blocks = GuestFiles.MOST_BLOCKS;
    private Clock clock;
    private Random random;
    private int heapPages = GuestSystem.AS_TRANSLATED;
    private Long instructions;
    private Duration time;
    private int mostOutput = DEFAULT_OUTPUT_BYTES;

    /** A call that begins with arguments. */
    Call(Program program, String[] arguments) {
        this(program, arguments, null);
    }

    /** A call that goes on with a snapshot. */
    Call(Program program, Snapshot snapshot) {
        this(program, new String[0], snapshot);
    }

    private Call(Program program, String[] arguments, Snapshot snapshot) {
        this.program = program;
        this.arguments = arguments.clone();
        this.snapshot = snapshot;
        this.name = program.name();
        for (String argument : arguments) {
            requireText(argument);
        }
    }

    private static void requireText(String text) {
        if (text.indexOf(0) >= 0) {
            throw new IllegalArgumentException("a text for a program has no character 0");
        }
    }

    /** A call that goes on with a snapshot has its arguments, files and heap from there. */
    private void needBeginning() {
        if (snapshot != null) {
            throw new IllegalStateException("a call that goes on with a snapshot has its arguments, its files and its heap from there");
        }
    }

    /**
     * Argument 0, which is the name by which the program is called.
     *
     * @param argument the name; at first it is that of the program
     * @return this
     * @throws IllegalArgumentException where it has a character 0
     */
    public Call name(String argument) {
        needBeginning();
        requireText(argument);
        name = argument;
        return this;
    }

    /**
     * Input as bytes.
     *
     * @param bytes all of input. They are not copied, so they have to stay as they are while the call runs
     * @return this
     */
    public Call input(byte[] bytes) {
        inputBytes = Objects.requireNonNull(bytes);
        input = null;
        return this;
    }

    /**
     * Input as a stream. Up to 4,096 bytes are read ahead. It is not closed.
     *
     * @param stream where input is read
     * @return this
     */
    public Call input(InputStream stream) {
        input = Objects.requireNonNull(stream);
        return this;
    }

    /**
     * Where output goes, in place of the result. What is written is gathered, and goes out before input is waited for, before bytes go to
     * the other output, when there are 8,192 bytes, and at the end. The stream is flushed then, and not closed.
     *
     * @param stream where output goes
     * @return this
     */
    public Call output(OutputStream stream) {
        output = Objects.requireNonNull(stream);
        return this;
    }

    /**
     * Where error output goes, in place of the result, as {@link #output}. Both may be one stream.
     *
     * @param stream where error output goes
     * @return this
     */
    public Call errorOutput(OutputStream stream) {
        errorOutput = Objects.requireNonNull(stream);
        return this;
    }

    /**
     * A file that the program finds. It is in memory, and what the program does to it is seen in {@link Result#files} alone.
     *
     * @param path its name, by which the program opens it: 1 to 255 bytes in UTF-8. A character DC80 to DCFF stands for the byte of its last two
     *     digits, as in {@link Result#files}
     * @param content its bytes. They are copied only where the program changes the file, so they have to stay as they are while the call runs
     * @return this
     * @throws IllegalArgumentException where the name is empty, too long or has a character 0, or where there are 256 files already
     */
    public Call file(String path, byte[] content) {
        needBeginning();
        requireText(path);
        int length = Names.bytesOf(path).length;
        if (length == 0 || length > LONGEST_NAME) {
            throw new IllegalArgumentException("the name of a file has 1 to 255 bytes, and not " + length);
        }
        files.put(path, Objects.requireNonNull(content));
        if (files.size() > GuestFiles.MOST_FILES) {
            throw new IllegalArgumentException("a program finds at most 256 files");
        }
        return this;
    }

    /**
     * A folder whose files the program finds, by their names in it, where no file in memory has the name. They are opened where they are when the
     * program opens them, and closed at the end of the call at the latest. Names that lead out of the folder, as links and {@code ..} may, name
     * nothing. The files use no blocks of the disk.
     *
     * @param path the folder
     * @param allowed what the program may do there
     * @return this
     */
    public Call folder(Path path, FolderAccess allowed) {
        folder = Objects.requireNonNull(path);
        access = Objects.requireNonNull(allowed);
        return this;
    }

    /**
     * The size of the disk for the files in memory.
     *
     * @param most the blocks of 4,096 bytes that all files together may use: 0 to 65,536, which it is at first
     * @return this
     * @throws IllegalArgumentException where the number is out of this range
     */
    public Call blocks(int most) {
        needBeginning();
        if (most < 0 || most > GuestFiles.MOST_BLOCKS) {
            throw new IllegalArgumentException("a disk has 0 to 65,536 blocks, and not " + most);
        }
        blocks = most;
        return this;
    }

    /**
     * The most bytes of output, and as many of error output, that are gathered where they have no stream. A program that writes more ends with
     * {@link Ending#OUTPUT_FAILED}. For a library this counts what was not yet taken.
     *
     * @param bytes the most bytes: 67,108,864 at first
     * @return this
     * @throws IllegalArgumentException where the number is negative
     */
    public Call mostOutput(int bytes) {
        if (bytes < 0) {
            throw new IllegalArgumentException("the most bytes of output are no negative number, as " + bytes);
        }
        mostOutput = bytes;
        return this;
    }

    /**
     * The moment that the program takes for the present, as long as it runs: its clock stands still, and to wait takes no time. At first the clock is
     * that of the process.
     *
     * @param seconds seconds since 1970, of which the program sees the lowest 31 bits where it asks by the system's call
     * @return this
     */
    public Call moment(long seconds) {
        return clock(Clock.fixed(Instant.ofEpochSecond(seconds), ZoneOffset.UTC));
    }

    /**
     * The clock by which the program tells the present, as {@link Clock#systemUTC} for one that runs. At first the system's call tells the moment at
     * which the call is run, and a file of the host (docs/HOST.md) the time of the process.
     *
     * @param running the clock. Of its seconds a program sees the lowest 31 bits where it asks by the system's call
     * @return this
     */
    public Call clock(Clock running) {
        clock = Objects.requireNonNull(running);
        return this;
    }

    /**
     * Where the program's random bytes come from ({@code /dev/urandom}). At first they are those of a {@link java.security.SecureRandom}.
     *
     * @param source a source of bytes; one that begins with the same seed gives the same run
     * @return this
     */
    public Call random(Random source) {
        random = Objects.requireNonNull(source);
        return this;
    }

    /**
     * The pages of the heap, in place of those with which the program was translated. What is proved of a program is said of the heap of its translation;
     * that another one makes no difference but its size is tested.
     *
     * @param pages pages of 4,096 bytes: 0 to 32,768
     * @return this
     * @throws IllegalArgumentException where the number is out of this range
     */
    public Call heap(int pages) {
        needBeginning();
        if (pages < 0 || pages > MOST_HEAP_PAGES) {
            throw new IllegalArgumentException("a heap has 0 to 32,768 pages, and not " + pages);
        }
        heapPages = pages;
        return this;
    }

    /**
     * The most instructions that a metered program makes, in place of those of its translation (docs/HOST.md): it ends with fault 12 where it would go on.
     * In a library each call of a function from outside has so many.
     *
     * @param most the most instructions: 1 to 2^63 - 1, which is as good as none. At first it is what {@code --meter} said, where its most, 2,147,483,647,
     *     stands for no bound
     * @return this, of which {@link #run} and {@link #library} throw an {@code IllegalArgumentException} where the program has no meter
     * @throws IllegalArgumentException where the number is out of this range
     */
    public Call instructions(long most) {
        if (most < 1) {
            throw new IllegalArgumentException("a program makes 1 instruction or more, and not " + most);
        }
        instructions = most;
        return this;
    }

    /**
     * The time after which a metered program ends with {@link Ending#TIMED_OUT}: within a slice of 1,000,000 instructions, or at a call of the system. In a
     * library each call of a function from outside has as much. Time that a stream of the caller's takes is not cut short.
     *
     * @param most the time from the start of the run, or of the call of a function
     * @return this, of which {@link #run} and {@link #library} throw an {@code IllegalArgumentException} where the program has no meter
     */
    public Call deadline(Duration most) {
        time = Objects.requireNonNull(most);
        return this;
    }

    /**
     * A variable of the program's environment. It goes to the program before its arguments, as words NAME=VALUE and a word {@code --}, which the C
     * library of docs/LIBC.md takes for an environment; another program takes them for arguments.
     *
     * @param variable its name: a letter or _, and letters, digits and _
     * @param value its value
     * @return this
     * @throws IllegalArgumentException where the name is of another form, or the value has a character 0
     */
    public Call environment(String variable, String value) {
        needBeginning();
        if (!variable.matches("[A-Za-z_][A-Za-z_0-9]*")) {
            throw new IllegalArgumentException("the name of a variable is a letter or _, and letters, digits and _, and not " + variable);
        }
        requireText(value);
        environment.put(variable, value);
        return this;
    }

    /**
     * Which streams the program takes for a terminal. It tells a program over the C library of docs/LIBC.md by the variable NESTED_TTY of its environment.
     *
     * @param input whether input is a terminal
     * @param output whether output is
     * @param errorOutput whether error output is
     * @return this
     */
    public Call terminals(boolean input, boolean output, boolean errorOutput) {
        return environment("NESTED_TTY", (input ? "0" : "") + (output ? "1" : "") + (errorOutput ? "2" : ""));
    }

    /**
     * Runs the program in this thread, until it has ended. Calls of one program may run in several threads at once.
     *
     * <p>A thread that is interrupted ends its call when the program makes its next call of the system: reads, writes, opens and the
     * like. A program that only computes goes on, unless it is metered: then it ends within a slice of 1,000,000 instructions.
     *
     * @return how it ended, and what it left
     * @throws IllegalArgumentException where the arguments need more than 4,096 bytes, or the files more blocks than there are
     * @throws LinkageError where a class of the program cannot be loaded
     */
    public Result run() {
        try (Session session = session(HostCalls.NONE, Meter.of(instructions, time))) {
            return session.result(name, play(session));
        }
    }

    /**
     * Begins a run of a metered program that is made in slices, as {@link Execution} tells. The bound of {@link #instructions} is that of all slices.
     *
     * @return the run, of which nothing but call 0 was made
     * @throws IllegalArgumentException as {@link #run}, and where the program has no meter
     */
    public Execution start() {
        return new Execution(name, program, session(HostCalls.NONE, Meter.ofSlices(instructions, time)));
    }

    private Answer play(Session session) {
        try {
            return program.play(session.system()).in(program.functions());
        } catch (OutOfMemoryError end) {
            return Answer.trapped(Traps.NO_MEMORY, end);
        }
    }

    /**
     * Starts a resident program in this thread, and gives its functions once it is ready for their calls (docs/HOST.md).
     *
     * @return the functions of the program
     * @throws CallFailed where the program ended and was not ready before
     * @throws IllegalArgumentException as {@link #run}
     * @throws LinkageError where a class of the program cannot be loaded
     */
    public Library library() {
        needBeginning();
        ResidentCalls calls = new ResidentCalls();
        Session session = session(calls, Meter.of(instructions, time));
        Copy copy = program.takeCopy();
        try {
            return new Library(name, program, copy, session, calls);
        } catch (RuntimeException | Error thrown) {
            session.close();
            copy.forget();
            program.putBack(copy);
            throw thrown;
        }
    }

    private Session session(HostCalls hostCalls, Meter meter) {
        try {
            return newSession(hostCalls, meter);
        } catch (Stopped stopped) {
            throw new IllegalArgumentException(name + ": " + stopped.answer().explanation(), stopped.answer().cause());
        }
    }

    private Session newSession(HostCalls hostCalls, Meter meter) {
        Arguments words = Arguments.of(name, words());
        GuestClock guestClock = newClock(meter);
        HostFiles host = new HostFiles(guestClock, random, Collections.emptyMap());
        int disk = snapshot == null ? blocks : snapshot.system().blocks();
        GuestFiles guestFiles = new GuestFiles(disk, folder == null ? null : LiveFolder.of(folder, access), host);
        for (Map.Entry<String, byte[]> file : files.entrySet()) {
            guestFiles.add(Names.pathOf(file.getKey()), file.getValue());
        }
        GatheredOutput gathered = new GatheredOutput(mostOutput, snapshot == null ? NOTHING : snapshot.system().output());
        GatheredOutput errorsGathered = new GatheredOutput(mostOutput, snapshot == null ? NOTHING : snapshot.system().errorOutput());
        GivenInput givenInput = newInput();
        Console console = new Console(
            givenInput,
            output == null ? gathered : output,
            errorOutput == null ? errorsGathered : errorOutput);
        GuestSystem system = new GuestSystem(console, guestFiles, words, guestClock::seconds, hostCalls, heapPages, meter, snapshot);
        return new Session(givenInput, console, guestFiles, system, gathered, errorsGathered);
    }

    private GuestClock newClock(Meter meter) {
        GuestClock guestClock = clock == null ? GuestClock.running(meter::check) : GuestClock.of(clock, meter::check);
        return snapshot == null ? guestClock : guestClock.resumed(snapshot.system().start(), snapshot.system().elapsed());
    }

    /** Input: first what the snapshot has of it. */
    private GivenInput newInput() {
        byte[] given = input == null ? inputBytes : NOTHING;
        if (snapshot == null) {
            return new GivenInput(given, input);
        }
        byte[] before = snapshot.system().input();
        byte[] all = Arrays.copyOf(before, before.length + given.length);
        System.arraycopy(given, 0, all, before.length, given.length);
        return new GivenInput(all, input);
    }

    /** The words behind argument 0. */
    private List<String> words() {
        List<String> words = new ArrayList<>();
        environment.forEach((variable, value) -> words.add(variable + "=" + value));
        if (!words.isEmpty()) {
            words.add("--");
        }
        words.addAll(Arrays.asList(arguments));
        return words;
    }
}
