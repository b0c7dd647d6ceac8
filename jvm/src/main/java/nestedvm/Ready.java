package nestedvm;

/** A resident program is ready for calls of its functions. It is thrown through the classes of the program. */
final class Ready extends Error {
    private static final long serialVersionUID = 1;

    private final int table;
    private final int back;
    private final int stack;
    private final int global;

    Ready(int table, int back, int stack, int global) {
        super(null, null, false, false);
        this.table = table;
        this.back = back;
        this.stack = stack;
        this.global = global;
    }

    /** The address of the table of functions. */
    int table() {
        return table;
    }

    /** Where a called function returns to. */
    int back() {
        return back;
    }

    /** The stack pointer. */
    int stack() {
        return stack;
    }

    /** The pointer to small data ({@code $gp}). */
    int global() {
        return global;
    }
}
