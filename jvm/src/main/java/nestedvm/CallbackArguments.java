package nestedvm;

/**
 * The arguments of a call that a program makes of a {@link Callback}, as words of 32 bits. An {@code int}, a {@code float}, a pointer and a smaller
 * integer are one word; a {@code long long} and a {@code double} are two, of which the first is at an even place.
 */
public final class CallbackArguments {
    private static final int WORD_BYTES = 4;

    private final Library library;
    private final int place;

    CallbackArguments(Library library, int place) {
        this.library = library;
        this.place = place;
    }

    private int addressOf(int index) {
        if (index < 0) {
            throw new IllegalArgumentException("arguments are counted from 0, and not from " + index);
        }
        return place + WORD_BYTES * index;
    }

    /**
     * The library whose program calls.
     *
     * @return the library
     */
    public Library library() {
        return library;
    }

    /**
     * An argument of one word.
     *
     * @param index its place among the words, from 0
     * @return the word
     * @throws IllegalArgumentException where the program's stack has no such word
     */
    public int word(int index) {
        return library.memory().word(addressOf(index));
    }

    /**
     * A {@code long long}.
     *
     * @param index the place of its first word among the words, which is even
     * @return the value
     * @throws IllegalArgumentException where the program's stack has no such words
     */
    public long wide(int index) {
        return library.memory().pair(addressOf(index));
    }

    /**
     * A {@code double}.
     *
     * @param index the place of its first word among the words, which is even
     * @return the value
     * @throws IllegalArgumentException where the program's stack has no such words
     */
    public double real(int index) {
        return Double.longBitsToDouble(wide(index));
    }

    /**
     * A pointer.
     *
     * @param index its place among the words, from 0
     * @return the pointer, null for 0
     * @throws IllegalArgumentException where the program's stack has no such word
     */
    public Pointer pointer(int index) {
        return library.pointer(word(index));
    }

    /**
     * A text, which the argument points to: the bytes up to the first zero, in UTF-8.
     *
     * @param index the pointer's place among the words, from 0
     * @return the text, null where the pointer is 0
     * @throws IllegalArgumentException where the text cannot be read
     */
    public String text(int index) {
        int address = word(index);
        return address == 0 ? null : library.text(address);
    }
}
