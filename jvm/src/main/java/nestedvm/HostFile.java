package nestedvm;

/** A file that the host answers: a device, a folder, or what it tells of folders, the clock and the environment. It is read, and nothing else. */
abstract class HostFile extends GuestFile {
    HostFile(String name) {
        super(name);
    }

    @Override
    void open(boolean toWrite) throws Refusal {
        if (toWrite) {
            throw new Refusal(Refusal.DENIED);
        }
        super.open(false);
    }

    @Override
    final int diskBlocksFor(int size) {
        return 0;
    }

    @Override
    final void resize(int size) {
        throw neverWritten();
    }

    @Override
    final void write(int place, GuestMemory memory, int address, int count) {
        throw neverWritten();
    }

    private static IllegalStateException neverWritten() {
        return new IllegalStateException("a file of the host is never opened to be written");
    }

    /** What the host tells of it. */
    abstract FileStatus status();
}
