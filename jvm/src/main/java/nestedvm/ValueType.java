package nestedvm;

/** A type of Java whose values C has as one word or as two. */
interface ValueType {
    /** Whether these are two words, which begin at an even place among the words of a call. */
    default boolean isWide() {
        return false;
    }

    /** The value that bits are; of a word these are the low 32. */
    Object value(Library library, long bits);

    /** The bits that a value is. */
    long bits(Library library, Object value);
}
