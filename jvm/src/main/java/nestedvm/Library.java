package nestedvm;

import java.nio.ByteOrder;
import java.nio.charset.StandardCharsets;
import java.util.Collections;
import java.util.HashMap;
import java.util.LinkedHashMap;
import java.util.Map;
import java.util.Objects;
import java.util.Set;

/**
 * The functions of a resident program, which Java calls: C functions that share one memory. {@link Call#library} makes one.
 *
 * <p>The program stays as its {@code main} left it, with its memory, files and streams, and each call of a function goes on from there. A function
 * takes words of 32 bits and gives one or two of them; an address is such a word, and stands for the bytes that {@link #read} and
 * {@link #write} move. docs/HOST.md says how a program tells its functions.
 *
 * <p>A library may be used by several threads; its methods take turns. Where a function faults, or is interrupted, or the stack of the
 * thread ends, the call throws, what the function did up to there stands, and further calls can be made. It is the function's own
 * matter whether its data are then in order. Where the program leaves, the library is over.
 */
public final class Library implements AutoCloseable {
    private static final int WORD_BYTES = 4;

    /** The bytes of what the table of functions has for each. */
    private static final int ENTRY_BYTES = 8;

    /** The most functions that a program tells. */
    private static final int MOST_FUNCTIONS = 16_384;

    private final String name;
    private final Program program;
    private final Copy copy;
    private final Session session;
    private final Map<String, Integer> functions = new LinkedHashMap<>();

    /** Interfaces whose objects were given addresses. */
    private final Map<Class<?>, FunctionType> functionTypes = new HashMap<>();
    private final ResidentMemory memory;
    private final Callbacks callbacks;
    private final CallStack stack;

    /** Whether the program has left, so that no function can be called any longer. */
    private boolean isOver;

    /** How many calls by interfaces have something in memory. */
    private int areas;

    /** Whether output goes out at the end of a call. */
    private boolean isFlushing;

    /** Whether the library was closed, maybe while calls are under way, and whether all was then given back. */
    private boolean isClosed;
    private boolean isGivenBack;

    /** Starts the program of a copy in this thread, or throws where it is not ready before it ends. */
    Library(String name, Program program, Copy copy, Session session, ResidentCalls calls) {
        this.name = name;
        this.program = program;
        this.copy = copy;
        this.session = session;
        Ready ready = start();
        try {
            GuestMemory pages = new GuestMemory(copy.table("rd"), copy.table("wr"));
            this.memory = new ResidentMemory(name, pages, session.system().order());
            this.callbacks = new Callbacks(name, calls.stubs());
            this.stack = new CallStack(name, session.system(), copy.registers(), pages, memory, callbacks, ready);
        } catch (ReflectiveOperationException missing) {
            throw new IllegalArgumentException(name + " has other classes than a translated program", missing);
        }
        calls.setStack(stack);
        readTable(ready.table());
    }

    private Ready start() {
        try {
            throw failure(copy.run(session.system()));
        } catch (Ready begun) {
            return begun;
        } catch (Stopped stopped) {
            throw failure(stopped.answer());
        }
    }

    private CallFailed failure(Answer answer) {
        return new CallFailed(name, session.result(name, answer.in(program.functions())));
    }

    /** The table has the addresses of a name and of its function in turn, and 0 behind them. */
    private void readTable(int table) {
        int end = table + MOST_FUNCTIONS * ENTRY_BYTES;
        int at = table;
        while (word(at) != 0) {
            if (at == end) {
                throw new IllegalArgumentException(name + " tells more than " + MOST_FUNCTIONS + " functions");
            }
            functions.put(memory.functionName(word(at)), word(at + WORD_BYTES));
            at += ENTRY_BYTES;
        }
    }

    /**
     * The names of the functions that the program has told.
     *
     * @return the names, in the program's order
     */
    public Set<String> functions() {
        return Collections.unmodifiableSet(functions.keySet());
    }

    /**
     * The function of a name.
     *
     * @param function its name
     * @return its address, by which it is called
     * @throws IllegalArgumentException where the program has told none of that name
     */
    public int function(String function) {
        Integer address = functions.get(function);
        if (address == null) {
            throw new IllegalArgumentException(name + " has no function " + function);
        }
        return address;
    }

    /**
     * Calls a function, and waits until it has returned.
     *
     * @param function its address
     * @param words its arguments: each int, pointer, char or short is one word, and a {@code long long} two, in the program's order of bytes and from
     *     an even place among the words on
     * @return what it gives, in one word; of a function without a value anything
     * @throws CallFailed where it did not return: the result tells why
     * @throws IllegalArgumentException where there is no room for the arguments on the program's stack
     * @throws IllegalStateException where the library is closed, or the program has left
     */
    public synchronized int call(int function, int... words) {
        return play(function, words).first();
    }

    /**
     * Calls a function that gives a {@code long long}, and waits until it has returned.
     *
     * @param function its address
     * @param words its arguments, as of {@link #call}
     * @return what it gives
     * @throws CallFailed where it did not return: the result tells why
     * @throws IllegalArgumentException where there is no room for the arguments on the program's stack
     * @throws IllegalStateException where the library is closed, or the program has left
     */
    public synchronized long callLong(int function, int... words) {
        Returned returned = play(function, words);
        return memory.pairOf(returned.first(), returned.second());
    }

    private Returned play(int function, int[] words) {
        needCall();
        try {
            if (stack.depth() == 0) {
                session.forgetFailure();
                session.system().meter().beginCall();
            }
            Returned returned = stack.call(function, words);
            if (stack.depth() == 0) {
                flush();
            }
            return returned;
        } catch (Stopped stopped) {
            throw ended(stopped.answer());
        } finally {
            giveBackIfClosed();
        }
    }

    private void needCall() {
        if (isOver || isClosed) {
            throw new IllegalStateException(name + (isClosed ? " is closed" : " has left"));
        }
        if (isFlushing) {
            throw new IllegalStateException("a call of " + name + " is under way in this thread, as where one of its streams calls it");
        }
    }

    /** Lets output go out, to a stream that may try to call this library. */
    private void flush() {
        isFlushing = true;
        try {
            session.flush();
        } finally {
            isFlushing = false;
        }
    }

    /** The order of bytes of the program. */
    ByteOrder order() {
        return memory.order();
    }

    /** The memory of the program, unless it was given back. */
    ResidentMemory memory() {
        if (isGivenBack) {
            throw new IllegalStateException(name + " is closed");
        }
        return memory;
    }

    /** A function did not return. Where the program has left there is no further call. */
    private CallFailed ended(Answer answer) {
        if (answer.ending() == Ending.EXITED) {
            isOver = true;
        }
        return new CallFailed(name, session.failure(name, answer.in(program.functions())));
    }

    /**
     * Takes room in the program's heap, by its function {@code malloc}.
     *
     * @param bytes how many bytes
     * @return the address of the first one
     * @throws IllegalArgumentException where the program has told no such function
     * @throws IllegalStateException where the function gives 0, or as {@link #call}
     * @throws CallFailed as {@link #call}
     */
    public int allocate(int bytes) {
        int address = call(function("malloc"), bytes);
        if (address == 0) {
            throw new IllegalStateException(name + " has no room for " + bytes + " bytes");
        }
        return address;
    }

    /**
     * Gives room back, by the program's function {@code free}.
     *
     * @param address what {@link #allocate} gave
     * @throws IllegalArgumentException where the program has told no such function
     * @throws IllegalStateException as {@link #call}
     * @throws CallFailed as {@link #call}
     */
    public void release(int address) {
        call(function("free"), address);
    }

    /**
     * Takes room in the program's heap, by its function {@code malloc}, as {@link #allocate} does.
     *
     * @param bytes how many bytes
     * @return the room, which its {@link Memory#close} gives back
     * @throws IllegalArgumentException where the program has told no such function
     * @throws IllegalStateException where the function gives 0, or as {@link #call}
     * @throws CallFailed as {@link #call}
     */
    public Memory allocateMemory(int bytes) {
        return new Memory(this, allocate(bytes), bytes);
    }

    /** Gives such room back, where the library is still open. */
    synchronized void releaseMemory(int address) {
        if (!isOver && !isClosed) {
            release(address);
        }
    }

    /**
     * Reads bytes of the program's memory.
     *
     * @param address where they begin
     * @param count how many they are
     * @return the bytes
     * @throws IllegalArgumentException where one of them cannot be read, or the number is negative
     * @throws IllegalStateException where the library is closed
     */
    public synchronized byte[] read(int address, int count) {
        return memory().read(address, count);
    }

    /**
     * Writes bytes into the program's memory.
     *
     * @param address where they begin
     * @param bytes the bytes
     * @throws IllegalArgumentException where one of them may not be written; then none is
     * @throws IllegalStateException where the library is closed
     */
    public synchronized void write(int address, byte[] bytes) {
        memory().write(address, bytes, 0, bytes.length);
    }

    /**
     * Reads a word of the program's memory, in the program's order of bytes.
     *
     * @param address where it begins, at any address
     * @return the word
     * @throws IllegalArgumentException where it cannot be read
     * @throws IllegalStateException where the library is closed
     */
    public synchronized int word(int address) {
        return memory().word(address);
    }

    /**
     * Writes a word into the program's memory, in the program's order of bytes.
     *
     * @param address where it begins, at any address
     * @param value the word
     * @throws IllegalArgumentException where it may not be written
     * @throws IllegalStateException where the library is closed
     */
    public synchronized void setWord(int address, int value) {
        memory().setWord(address, value);
    }

    /**
     * Reads a text of the program's memory: the bytes from an address up to the first zero, in UTF-8.
     *
     * @param address where it begins
     * @return the text
     * @throws IllegalArgumentException where a byte before the first zero cannot be read, or there is none among 16,777,217 bytes
     * @throws IllegalStateException where the library is closed
     */
    public synchronized String text(int address) {
        return new String(memory().bytesToZero(address), StandardCharsets.UTF_8);
    }

    /**
     * The place of the program's memory at an address.
     *
     * @param address the address
     * @return the pointer, null for 0
     */
    public Pointer pointer(int address) {
        return address == 0 ? null : new Pointer(this, address);
    }

    /**
     * The functions of the program by an interface: its methods are functions of C, of the same names or of those that {@link FunctionName} has.
     *
     * <table>
     * <caption>Types</caption>
     * <tr><th>Java</th><th>C</th></tr>
     * <tr><td>byte, short, char, int, long</td><td>signed char, short, unsigned short, int or long, long long</td></tr>
     * <tr><td>float, double, boolean</td><td>float, double, an int or _Bool that is not 0 where it is true</td></tr>
     * <tr><td>String</td><td>const char *: a copy with a zero behind it, in UTF-8 or as {@link Encoding} has it; given, a text up to a zero</td></tr>
     * <tr><td>byte[] and other arrays of numbers, ByteBuffer</td><td>a pointer to a copy, which is copied back; see {@link In} and {@link Out}. Of a buffer
     * these are the bytes from its position to its limit</td></tr>
     * <tr><td>{@link Pointer}, {@link JavaFunction}, a {@link Structure}</td><td>its address</td></tr>
     * <tr><td>an interface with one method</td><td>a pointer to a function, which is there while the call lasts</td></tr>
     * <tr><td>Object... at the end</td><td>an open list, as printf has one: each argument by its own type</td></tr>
     * </table>
     *
     * <p>Null is 0, both ways. Copies are there while the call lasts: small ones on the program's stack, and others in its heap, by {@code malloc}. What a function
     * of C gives may be one of these but an array, a buffer, an interface or a {@code JavaFunction}. Default and static methods of the interface are
     * its own. Methods throw as {@link #call} does.
     *
     * @param <T> the interface
     * @param type the interface
     * @return an object of it, which is good as long as this library
     * @throws IllegalArgumentException where a method names no function of the program, or has a type that is none of these
     */
    public <T> T as(Class<T> type) {
        return Binding.of(this, type, null);
    }

    /**
     * A function of C by its address, as an object of an interface with one method, whose types are those of {@link #as(Class)}.
     *
     * @param <T> the interface
     * @param type the interface
     * @param function where the function stands
     * @return an object of the interface, which is good as long as this library
     * @throws IllegalArgumentException where the interface has not one method to implement, or this has a type that C does not have, or where the
     *     pointer is one of another library
     */
    public <T> T as(Class<T> type, Pointer function) {
        Objects.requireNonNull(function);
        return Binding.of(this, type, (int) PointerType.INSTANCE.bits(this, function));
    }

    /** Puts bits into the words of a call, one or a pair of them. */
    void putBits(int[] words, int place, boolean isWide, long bits) {
        if (isWide) {
            words[place] = memory.firstOf(bits);
            words[place + 1] = memory.secondOf(bits);
        } else {
            words[place] = (int) bits;
        }
    }

    /** What a call by an interface has in memory. The library is not closed before that is. */
    CallArea newCallArea() {
        memory();
        CallArea area = new CallArea(this, stack, areas);
        areas++;
        return area;
    }

    /** There are so many such areas again. */
    void setAreas(int areas) {
        this.areas = areas;
        giveBackIfClosed();
    }

    String name() {
        return name;
    }

    /**
     * Gives a function of Java an address, by which the program calls it and gets one word. The function is called in the thread that has called
     * the program, and may itself call functions of this library and of others. While it runs, no other thread can use this library.
     *
     * @param function the function
     * @return what has the address, until it is closed
     * @throws IllegalStateException where 256 such functions have addresses, where the program has no stubs, or where the library is closed
     */
    public JavaFunction callback(Callback function) {
        return add(new JavaFunction(this, function, false, null));
    }

    /**
     * The same for a function that gives a {@code long long}, or the bits of a {@code double}.
     *
     * @param function the function
     * @return what has the address, until it is closed
     * @throws IllegalStateException as {@link #callback(Callback)}
     */
    public JavaFunction wideCallback(Callback function) {
        return add(new JavaFunction(this, function, true, null));
    }

    /**
     * The same as {@link #callback(Callback)}, but that C does not see it where the function throws: it gets a default answer, and what was thrown ends the
     * call that Java made, once C has returned from it. So C can close what it has opened.
     *
     * @param function the function
     * @param defaultAnswer the answer where it throws
     * @return what has the address, until it is closed
     * @throws IllegalStateException as {@link #callback(Callback)}
     */
    public JavaFunction callback(Callback function, int defaultAnswer) {
        return add(new JavaFunction(this, function, false, (long) defaultAnswer));
    }

    /**
     * Gives an object of an interface with one method an address, by which the program calls this method as {@link #callback(Callback)} says. Its
     * arguments and its value are of the types that {@link #as} has for what C gives and gets, but for texts and arrays as values;
     * {@link DefaultAnswer} may say what C gets where it throws. An object that {@code as} is given to an interface's method needs no such address.
     *
     * @param <T> the interface
     * @param type the interface
     * @param function the object, as a lambda expression is one
     * @return what has the address, until it is closed
     * @throws IllegalArgumentException where the interface has not exactly one method to implement, or this has other types
     * @throws IllegalStateException as {@link #callback(Callback)}
     */
    public <T> JavaFunction callback(Class<T> type, T function) {
        Objects.requireNonNull(function);
        return functionType(type).place(this, function);
    }

    private synchronized FunctionType functionType(Class<?> type) {
        return functionTypes.computeIfAbsent(type, FunctionType::of);
    }

    synchronized JavaFunction add(JavaFunction function) {
        memory();
        callbacks.add(function);
        return function;
    }

    synchronized void release(JavaFunction function) {
        callbacks.remove(function);
    }

    /**
     * Takes what the program has written to output since this was asked last.
     *
     * @return the bytes; none where output has a stream
     */
    public synchronized byte[] takeOutput() {
        return session.takeOutput();
    }

    /**
     * Takes what the program has written to error output since this was asked last.
     *
     * @return the bytes; none where error output has a stream
     */
    public synchronized byte[] takeErrorOutput() {
        return session.takeErrorOutput();
    }

    /**
     * The files in memory, as they are now.
     *
     * @return their names in order, as {@link Result#files} has them
     */
    public synchronized Set<String> files() {
        return session.files().names();
    }

    /**
     * A file in memory, as it is now.
     *
     * @param file its name
     * @return a copy of its bytes, or null where there is none of that name
     */
    public synchronized byte[] file(String file) {
        return session.files().contentOf(Names.pathOf(file));
    }

    /**
     * Drops the memory of the program, and closes its files. Its classes go back to the program. To close again does nothing. While a function runs this
     * waits until it has returned; where it is called in that function's own thread, as by a stream or a function of Java, it takes effect then, and
     * no further function can be called. A function of a metered program that runs in another thread is ended, as by an interrupt.
     *
     * @throws CallFailed where a file of the folder cannot be closed; all else is done
     */
    @Override
    public void close() {
        if (!Thread.holdsLock(this)) {
            session.system().meter().stop();
        }
        closeInTurn();
    }

    private synchronized void closeInTurn() {
        isClosed = true;
        giveBackIfClosed();
    }

    private void giveBackIfClosed() {
        if (!isClosed || isGivenBack || stack.depth() > 0 || areas > 0 || isFlushing) {
            return;
        }
        isGivenBack = true;
        copy.forget();
        program.putBack(copy);
        try {
            session.files().closeAll();
        } catch (Stopped failure) {
            throw new CallFailed(name, session.failure(name, failure.answer()));
        }
    }
}
