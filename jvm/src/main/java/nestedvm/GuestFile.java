package nestedvm;

/** A file of a guest: its bytes, and its name until that is taken away. Places and sizes count bytes, at most 7FFFFFFF. */
abstract class GuestFile {
    private static final int BLOCK_BYTES = 4096;

    private String name;
    private int opened;

    GuestFile(String name) {
        this.name = name;
    }

    /** How many blocks so many bytes need. */
    static int blocksFor(long length) {
        return (int) ((length + BLOCK_BYTES - 1) / BLOCK_BYTES);
    }

    /** The name, with a character for each of its bytes, or null. */
    final String name() {
        return name;
    }

    /** Gives the file another name, or none. */
    final void setName(String name) {
        this.name = name;
    }

    /** One more description stands for the file, by which it may be written or not; or the call is refused. */
    void open(boolean toWrite) throws Refusal {
        opened++;
    }

    /** One description less stands for the file. */
    void close() {
        opened--;
    }

    /** Whether a description stands for the file. */
    final boolean isOpen() {
        return opened > 0;
    }

    /** Whether the file has no name, and no description stands for it. */
    final boolean isUnused() {
        return name == null && opened == 0;
    }

    abstract int length();

    final int blocks() {
        return blocksFor(length());
    }

    /** How many blocks of the guest's disk the file would use with so many bytes. */
    abstract int diskBlocksFor(int size);

    final int diskBlocks() {
        return diskBlocksFor(length());
    }

    /** Cuts the file, or puts zeros behind its bytes. */
    abstract void resize(int size);

    /** Writes bytes of the guest's memory over those of the file, from a place on. */
    abstract void write(int place, GuestMemory memory, int address, int count);

    /** Reads bytes of the file, from a place on, into the guest's memory. */
    abstract void read(int place, GuestMemory memory, int address, int count);
}
