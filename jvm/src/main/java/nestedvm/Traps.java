package nestedvm;

/** The traps of the class machine, as a virtual machine throws them. */
final class Traps {
    /** The number of the trap of memory that has ended. */
    static final int NO_MEMORY = 6;

    private Traps() {
    }

    /** The trap in which the class machine ends where a virtual machine throws this; an error that is no trap is thrown on. */
    static Answer answerTo(Throwable thrown) {
        int trap = numberOf(thrown);
        if (trap != 0) {
            return Answer.trapped(trap, thrown);
        }
        if (thrown instanceof Error) {
            throw (Error) thrown;
        }
        throw new LinkageError("a class does what no translated class does: " + thrown, thrown);
    }

    /** The number of the trap, or 0 where this is none. */
    private static int numberOf(Throwable thrown) {
        if (thrown instanceof NullPointerException) {
            return 1;
        }
        if (thrown instanceof IndexOutOfBoundsException) {
            return 2;
        }
        if (thrown instanceof NegativeArraySizeException) {
            return 3;
        }
        if (thrown instanceof ArithmeticException) {
            return 4;
        }
        if (thrown instanceof StackOverflowError) {
            return 5;
        }
        return thrown instanceof OutOfMemoryError ? NO_MEMORY : 0;
    }
}
