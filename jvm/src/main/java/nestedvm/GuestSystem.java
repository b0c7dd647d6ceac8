package nestedvm;

import java.nio.ByteBuffer;
import java.nio.ByteOrder;
import java.util.function.LongSupplier;

/** The system that answers the calls of a guest, as docs/CALLS.md says. */
final class GuestSystem {
    /** A heap of as many pages as the program was translated with. */
    static final int AS_TRANSLATED = -1;

    private static final int EXIT = 1;

    private static final int PROCESS = 1;
    private static final int NEW_LINE = 0x0A;

    private static final int FROM_START = 0;
    private static final int FROM_PLACE = 1;
    private static final int FROM_END = 2;

    private static final int STATUS_BYTES = 16;
    private static final int STATUS_OF_FILE = 1;
    private static final int STATUS_OF_CONSOLE = 2;
    private static final int BLOCK_BYTES = 4096;

    /** The most bytes that are written to the console at once. */
    private static final int PIECE_BYTES = 8192;

    private final Console console;
    private final GuestFiles files;
    private final Arguments arguments;
    private final LongSupplier clock;
    private final HostCalls hostCalls;
    private final int heapPages;
    private final Meter meter;
    private final Snapshot snapshot;
    private final Descriptors descriptors;
    private final Heap heap = new Heap();
    private ByteOrder order = ByteOrder.BIG_ENDIAN;

    /** A system over a console, files and arguments, and a clock that tells seconds since 1970. */
    GuestSystem(Console console, GuestFiles files, Arguments arguments, LongSupplier clock) {
        this(console, files, arguments, clock, HostCalls.NONE, AS_TRANSLATED, Meter.none(), null);
    }

    /** The same with calls of the host's own, with a heap of so many pages, a meter, and a snapshot with which the guest goes on, or null. */
    GuestSystem(Console console, GuestFiles files, Arguments arguments, LongSupplier clock, HostCalls hostCalls, int heapPages, Meter meter,
        Snapshot snapshot) {
        this.console = console;
        this.files = files;
        this.arguments = arguments;
        this.clock = clock;
        this.hostCalls = hostCalls;
        this.heapPages = heapPages;
        this.meter = meter;
        this.snapshot = snapshot;
        this.descriptors = snapshot == null ? Descriptors.ofConsole() : snapshot.system().descriptors().restore(files.restore(snapshot.system()), files);
    }

    /** A system that answers no call: it throws {@link Begun} at the first one. */
    static GuestSystem untilBegun() {
        return new GuestSystem(null, null, null, null);
    }

    /** The meter of the program, which is of use where its classes are metered. */
    Meter meter() {
        return meter;
    }

    /** The pages of the heap, or {@link #AS_TRANSLATED}. */
    int heapPages() {
        return heapPages;
    }

    /** The snapshot with which the guest goes on, or null where it begins. */
    Snapshot snapshot() {
        return snapshot;
    }

    /** The guest of the snapshot goes on, with a heap, and an order of bytes by its number. */
    void goOn(int heapStart, int heapBytes, int orderNumber) {
        heap.begin(heapStart, heapBytes);
        if (!heap.setBreak(snapshot.system().programBreak())) {
            throw SnapshotReader.refused("the program break is outside of the heap");
        }
        setOrder(orderNumber);
    }

    private void setOrder(int number) {
        order = number == 1 ? ByteOrder.LITTLE_ENDIAN : ByteOrder.BIG_ENDIAN;
    }

    /** What a stopped run has of this system, with input that was not read and output that is gathered. */
    SystemState state(byte[] input, byte[] output, byte[] errorOutput) {
        return SystemState.of(heap.programBreak(), files, descriptors, input, output, errorOutput);
    }

    /** The guest has come to the address to which functions return: the run is left where one has, and else it faults there. */
    void leaveWhereReturned() {
        Departure returned = hostCalls.returned();
        if (returned != null) {
            throw returned;
        }
    }

    /** The order of the bytes of words, which the guest names as it begins. */
    ByteOrder order() {
        return order;
    }

    /**
     * The answer to a call with a number and four words. Where the thread is interrupted the run ends instead, but not where the program leaves
     * by the call or a function returns: what it has done is done.
     */
    int answer(GuestMemory memory, int number, int a0, int a1, int a2, int a3) {
        if (number != EXIT && number < HostCalls.FIRST) {
            if (Thread.interrupted()) {
                throw new Stopped(Answer.interrupted());
            }
            meter.check();
        }
        try {
            return number < HostCalls.FIRST ? serve(memory, number, a0, a1, a2, a3) : hostCalls.answer(number, a0, a1, a2, a3);
        } catch (Refusal refusal) {
            return refusal.error();
        } finally {
            meter.endCall();
        }
    }

    private int serve(GuestMemory memory, int number, int a0, int a1, int a2, int a3) throws Refusal {
        switch (number) {
            case 0:
                return begin(memory, a0, a1, a2, a3);
            case EXIT:
                throw new Ended(Answer.exited(a0));
            case 2:
                return open(memory.path(a0), new OpenFlags(a1));
            case 3:
                return close(a0);
            case 4:
                return read(memory, a0, a1, a2);
            case 5:
                return write(memory, a0, a1, a2);
            case 6:
                return seek(a0, a1, a2);
            case 7:
                return heap.move(a0);
            case 8:
                return status(memory, a0, a1);
            case 9:
                return unlink(memory.path(a0));
            case 10:
                return duplicate(a0);
            case 11:
                return truncate(a0, a1);
            case 12:
                return PROCESS;
            case 13:
                return (int) clock.getAsLong() & Integer.MAX_VALUE;
            case 14:
                return rename(memory.path(a0), memory.path(a1));
            case 15:
                return descriptors.need(a0).isConsole() ? 1 : 0;
            default:
                throw new Refusal(Refusal.NO_CALL);
        }
    }

    private int begin(GuestMemory memory, int place, int heapStart, int heapBytes, int orderNumber) throws Refusal {
        if (arguments == null) {
            throw new Begun(place, heapStart, heapBytes, orderNumber);
        }
        heap.needBeginning(heapStart, heapBytes);
        if (orderNumber != 0 && orderNumber != 1) {
            throw new Refusal(Refusal.INVALID);
        }
        memory.needRoom(place, Arguments.LONGEST_BLOCK);
        heap.begin(heapStart, heapBytes);
        setOrder(orderNumber);
        putAll(memory, place, arguments.block(place, order));
        return arguments.count();
    }

    private static void putAll(GuestMemory memory, int place, byte[] bytes) {
        memory.put(place, bytes, 0, bytes.length);
    }

    private int open(String path, OpenFlags flags) throws Refusal {
        GuestFile file = find(path);
        if (file == null && !flags.creates()) {
            throw new Refusal(Refusal.NO_ENTRY);
        }
        if (file != null && flags.createsOnly()) {
            throw new Refusal(Refusal.PRESENT);
        }
        int descriptor = descriptors.needFree();
        if (file == null) {
            file = files.create(path);
        }
        files.open(file, flags.writes());
        if (flags.empties()) {
            files.resize(file, 0);
        }
        descriptors.set(descriptor, Description.ofFile(file, flags));
        return descriptor;
    }

    private GuestFile find(String path) throws Refusal {
        int descriptor = HostFiles.descriptorOf(path);
        return descriptor < 0 ? files.find(path) : files.statusOf(path, descriptors.need(descriptor));
    }

    private int close(int descriptor) throws Refusal {
        Description description = descriptors.need(descriptor);
        boolean wasLast = descriptors.clear(descriptor);
        if (wasLast && !description.isConsole()) {
            files.close(description.file());
        }
        return 0;
    }

    private int read(GuestMemory memory, int descriptor, int place, int count) throws Refusal {
        Description description = descriptors.need(descriptor);
        description.needReading();
        needCount(count);
        if (count == 0) {
            return 0;
        }
        memory.needRoom(place, count);
        return description.isConsole() ? readLine(memory, place, count) : readFile(description, memory, place, count);
    }

    private static void needCount(int count) throws Refusal {
        if (count < 0) {
            throw new Refusal(Refusal.INVALID);
        }
    }

    /** Reads input up to the end of a line, so many bytes or the end of input, and tells how many bytes these are. */
    private int readLine(GuestMemory memory, int place, int count) {
        int done = 0;
        int value = 0;
        while (done < count && value != NEW_LINE) {
            value = console.read();
            if (value < 0) {
                break;
            }
            memory.put(place + done, value);
            done++;
        }
        return done;
    }

    private static int readFile(Description description, GuestMemory memory, int place, int count) {
        GuestFile file = description.file();
        if (file instanceof HostStream) {
            file.read(0, memory, place, count);
            return count;
        }
        int from = description.place();
        int given = Math.min(count, Math.max(file.length() - from, 0));
        file.read(from, memory, place, given);
        description.setPlace(from + given);
        return given;
    }

    private int write(GuestMemory memory, int descriptor, int address, int count) throws Refusal {
        Description description = descriptors.need(descriptor);
        description.needWriting();
        needCount(count);
        if (count == 0) {
            return 0;
        }
        memory.needBytes(address, count);
        if (description.isConsole()) {
            writeConsole(description.side(), memory, address, count);
        } else {
            int end = files.write(description.file(), description.writePlace(), memory, address, count);
            description.setPlace(end);
        }
        return count;
    }

    private void writeConsole(Side side, GuestMemory memory, int address, int count) {
        int done = 0;
        while (done < count) {
            byte[] piece = new byte[Math.min(count - done, PIECE_BYTES)];
            memory.copy(address + done, piece, 0, piece.length);
            console.write(side, piece);
            done += piece.length;
        }
    }

    private int seek(int descriptor, int offset, int whence) throws Refusal {
        Description description = descriptors.need(descriptor);
        if (description.isConsole()) {
            throw new Refusal(Refusal.NO_SEEK);
        }
        long place = seekBase(description, whence) + offset;
        if (place < 0 || place > Integer.MAX_VALUE) {
            throw new Refusal(Refusal.INVALID);
        }
        description.setPlace((int) place);
        return (int) place;
    }

    private static long seekBase(Description description, int whence) throws Refusal {
        switch (whence) {
            case FROM_START:
                return 0;
            case FROM_PLACE:
                return description.place();
            case FROM_END:
                return description.file().length();
            default:
                throw new Refusal(Refusal.INVALID);
        }
    }

    private int status(GuestMemory memory, int descriptor, int place) throws Refusal {
        Description description = descriptors.need(descriptor);
        memory.needRoom(place, STATUS_BYTES);
        ByteBuffer words = ByteBuffer.allocate(STATUS_BYTES).order(order);
        if (description.isConsole()) {
            words.putInt(STATUS_OF_CONSOLE).putInt(0).putInt(0);
        } else {
            GuestFile file = description.file();
            words.putInt(STATUS_OF_FILE).putInt(file.length()).putInt(file.blocks());
        }
        words.putInt(BLOCK_BYTES);
        putAll(memory, place, words.array());
        return 0;
    }

    private int unlink(String path) throws Refusal {
        files.unlink(files.need(path));
        return 0;
    }

    private int duplicate(int descriptor) throws Refusal {
        Description description = descriptors.need(descriptor);
        int other = descriptors.needFree();
        descriptors.set(other, description);
        return other;
    }

    private int truncate(int descriptor, int length) throws Refusal {
        Description description = descriptors.need(descriptor);
        description.needWriting();
        if (description.isConsole()) {
            throw new Refusal(Refusal.INVALID);
        }
        needCount(length);
        files.resize(description.file(), length);
        return 0;
    }

    private int rename(String from, String to) throws Refusal {
        files.rename(files.need(from), to);
        return 0;
    }
}
