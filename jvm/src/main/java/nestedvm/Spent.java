package nestedvm;

/** A slice of a metered program is at its end, and the program is to go on in the next one. It is thrown through the classes of the program. */
final class Spent extends Error {
    /** There is nothing to tell of one. */
    static final Spent SPENT = new Spent();

    private static final long serialVersionUID = 1;

    private Spent() {
        super(null, null, false, false);
    }
}
