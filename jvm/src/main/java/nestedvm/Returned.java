package nestedvm;

/** A function has returned to the host, with the stack pointer with which the call was made that has ended so. */
final class Returned extends Departure {
    private static final long serialVersionUID = 1;

    private int first;
    private int second;

    Returned(CallStack owner, int first, int second, int stack) {
        super(owner, stack);
        set(first, second);
    }

    /** From now on it has given these words. */
    final void set(int first, int second) {
        this.first = first;
        this.second = second;
    }

    /** Register 2 ({@code $v0}). */
    int first() {
        return first;
    }

    /** Register 3 ({@code $v1}). */
    int second() {
        return second;
    }
}
