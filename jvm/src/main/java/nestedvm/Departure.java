package nestedvm;

/**
 * A resident program has left its run, by a call to the host, and is to go on later or not at all. It is thrown through the classes of the
 * program, and through functions of Java where the program has jumped over them (longjmp).
 */
abstract class Departure extends Error {
    private static final long serialVersionUID = 1;

    private final transient CallStack owner;
    private final int stack;

    Departure(CallStack owner, int stack) {
        super(null, null, false, false);
        this.owner = owner;
        this.stack = stack;
    }

    /** The calls of the program that has left. Two programs have equal addresses. */
    final CallStack owner() {
        return owner;
    }

    /** The stack pointer with which it left, or with which it is to go on. */
    final int stack() {
        return stack;
    }
}
