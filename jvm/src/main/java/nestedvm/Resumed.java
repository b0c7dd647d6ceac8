package nestedvm;

/** A function of Java was answered, and the program goes on with what lies on its stack. */
class Resumed extends Departure {
    private static final long serialVersionUID = 1;

    private final int place;

    Resumed(CallStack owner, int place, int stack) {
        super(owner, stack);
        this.place = place;
    }

    /** The address of the code at which the program goes on. It needs no register but the stack pointer. */
    final int place() {
        return place;
    }
}
