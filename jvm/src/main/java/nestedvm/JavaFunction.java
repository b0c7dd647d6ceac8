package nestedvm;

/**
 * A function of Java that has an address in a program, so that C can call it as any function. {@link Library#callback(Callback)} and its kin make
 * one. It is there until it is closed, or the library is; a program has room for 256 that give one word, and for 256 that give a {@code long long} or
 * a {@code double}.
 */
public final class JavaFunction implements AutoCloseable {
    private final Library library;
    private final Callback callback;
    private final boolean isWide;
    private final long defaultAnswer;
    private final boolean hasDefault;
    private int number;
    private int address;

    /** A function that has no address yet; where it has a default answer, C goes on with it where the function throws. */
    JavaFunction(Library library, Callback callback, boolean isWide, Long defaultAnswer) {
        this.library = library;
        this.callback = callback;
        this.isWide = isWide;
        this.hasDefault = defaultAnswer != null;
        this.defaultAnswer = hasDefault ? defaultAnswer : 0;
    }

    /** From now on it has the stub of a number, at an address. */
    void place(int number, int address) {
        this.number = number;
        this.address = address;
    }

    int number() {
        return number;
    }

    boolean isWide() {
        return isWide;
    }

    boolean hasDefault() {
        return hasDefault;
    }

    long defaultAnswer() {
        return defaultAnswer;
    }

    /** Calls the function with arguments that stand at an address. */
    long call(int words) throws Exception {
        return callback.call(new CallbackArguments(library, words));
    }

    /**
     * The address by which C calls it. Once it is closed the address may be that of another function of Java.
     *
     * @return the address
     */
    public int address() {
        return address;
    }

    /**
     * The same as a pointer.
     *
     * @return the pointer
     */
    public Pointer pointer() {
        return library.pointer(address);
    }

    /** Takes the address back. C is to call it no longer: a call of it ends with {@link Ending#CALLBACK_FAILED}. To close again does nothing. */
    @Override
    public void close() {
        library.release(this);
    }
}
