package nestedvm;

/** A parameter of a function of C that Java calls by an interface. */
interface Parameter {
    /** Whether it is two words. */
    default boolean isWide() {
        return false;
    }

    /** The bits of the word or words that C gets for a value, of which more may stand in the call's area. */
    long pass(CallArea area, Object value);

    /** Takes back what C has made of it, when the function has returned. */
    default void takeBack(CallArea area, long bits, Object value) {
    }
}
