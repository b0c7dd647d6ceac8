package nestedvm;

/** A call is answered with an error, and changes nothing. */
final class Refusal extends Exception {
    static final int NO_ENTRY = -2;
    static final int BAD_DESCRIPTOR = -9;
    static final int NO_MEMORY = -12;

    /** Of files of a folder alone: its access, or its owner, forbids it. */
    static final int DENIED = -13;

    static final int BAD_ADDRESS = -14;

    /** Of folders alone: the folder at the start stays. */
    static final int BUSY = -16;

    static final int PRESENT = -17;

    /** Of folders alone: a name stands for no folder. */
    static final int NO_FOLDER = -20;

    static final int INVALID = -22;
    static final int TOO_MANY_OPEN = -24;
    static final int TOO_LARGE = -27;
    static final int NO_SPACE = -28;
    static final int NO_SEEK = -29;
    static final int NO_CALL = -88;

    /** Of folders alone: something is in the folder. */
    static final int NOT_EMPTY = -90;

    private static final long serialVersionUID = 1;

    private final int error;

    Refusal(int error) {
        super(null, null, false, false);
        this.error = error;
    }

    int error() {
        return error;
    }
}
