package nestedvm;

/** A program has made call 0, and its memory is as it begins. It is thrown through the classes of the program. */
final class Begun extends Error {
    private static final long serialVersionUID = 1;

    private final int place;
    private final int heapStart;
    private final int heapBytes;
    private final int order;

    Begun(int place, int heapStart, int heapBytes, int order) {
        super(null, null, false, false);
        this.place = place;
        this.heapStart = heapStart;
        this.heapBytes = heapBytes;
        this.order = order;
    }

    /** The address of the argument block. */
    int place() {
        return place;
    }

    /** The first address of the heap. */
    int heapStart() {
        return heapStart;
    }

    /** The bytes of the heap. */
    int heapBytes() {
        return heapBytes;
    }

    /** The number of the order of bytes. */
    int order() {
        return order;
    }
}
