package nestedvm;

/** Room in the heap of a resident program, which {@link Library#allocateMemory} has taken by {@code malloc}, and {@link #close} gives back by {@code free}. */
public final class Memory extends Pointer implements AutoCloseable {
    private boolean isFree;

    Memory(Library library, int address, int size) {
        super(library, address, library.order(), size);
    }

    /**
     * Gives the room back. To close again does nothing, and neither does it where the library is closed.
     *
     * @throws CallFailed where the program's function {@code free} fails
     */
    @Override
    public void close() {
        synchronized (library()) {
            if (!isFree) {
                isFree = true;
                library().releaseMemory(address());
            }
        }
    }
}
