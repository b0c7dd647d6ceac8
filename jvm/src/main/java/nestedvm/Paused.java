package nestedvm;

/** A slice of the caller's is at its end, and the run goes on with the next one. It is thrown through the classes of the program. */
final class Paused extends Error {
    /** There is nothing to tell of one. */
    static final Paused PAUSED = new Paused();

    private static final long serialVersionUID = 1;

    private Paused() {
        super(null, null, false, false);
    }
}
