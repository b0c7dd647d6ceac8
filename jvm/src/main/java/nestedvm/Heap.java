package nestedvm;

/** The heap of a guest, with its program break. Before the guest has begun all is 0. */
final class Heap {
    private static final long HIGHEST = 0x7FFFFFFFL;

    private boolean hasBegun;
    private long start;
    private long end;
    private long programBreak;

    /** Refuses the call unless the guest may begin with this heap. */
    void needBeginning(int start, int size) throws Refusal {
        if (hasBegun || endOf(start, size) > HIGHEST) {
            throw new Refusal(Refusal.INVALID);
        }
    }

    private static long endOf(int start, int size) {
        return Integer.toUnsignedLong(start) + Integer.toUnsignedLong(size);
    }

    /** The guest begins with this heap. */
    void begin(int start, int size) {
        this.hasBegun = true;
        this.start = Integer.toUnsignedLong(start);
        this.end = endOf(start, size);
        this.programBreak = this.start;
    }

    /** The address of the program break. */
    int programBreak() {
        return (int) programBreak;
    }

    /** Sets the program break, unless it is to be outside of the heap. */
    boolean setBreak(int address) {
        long moved = Integer.toUnsignedLong(address);
        if (moved < start || moved > end) {
            return false;
        }
        programBreak = moved;
        return true;
    }

    /** Moves the program break within the heap, and tells the old one. */
    int move(int delta) throws Refusal {
        long moved = programBreak + delta;
        if (moved < start || moved > end) {
            throw new Refusal(Refusal.NO_MEMORY);
        }
        int old = (int) programBreak;
        programBreak = moved;
        return old;
    }
}
