package nestedvm;

/** The program calls a function of Java, from below a call that it has jumped out of. The call that it now makes is to answer, and then goes on. */
final class Called extends Resumed {
    private static final long serialVersionUID = 1;

    private final int number;
    private final int words;

    Called(CallStack owner, int number, int words, int place, int stack) {
        super(owner, place, stack);
        this.number = number;
        this.words = words;
    }

    /** The number of the function's stub. */
    int number() {
        return number;
    }

    /** The address of the arguments, where the answer goes. */
    int words() {
        return words;
    }
}
