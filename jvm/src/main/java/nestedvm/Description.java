package nestedvm;

/** What descriptors stand for: a file or a side of the console, a place in the file, and what may be done with it. */
final class Description {
    private final GuestFile file;
    private final Side side;
    private final boolean mayRead;
    private final boolean mayWrite;
    private final boolean appends;
    private int place;
    private int descriptors;

    private Description(GuestFile file, Side side, boolean mayRead, boolean mayWrite, boolean appends) {
        this.file = file;
        this.side = side;
        this.mayRead = mayRead;
        this.mayWrite = mayWrite;
        this.appends = appends;
    }

    /** A side of the console: input is read, the others are written. */
    static Description ofConsole(Side side) {
        boolean isInput = side == Side.INPUT;
        return new Description(null, side, isInput, !isInput, false);
    }

    /** A file as flags open it, at its start. */
    static Description ofFile(GuestFile file, OpenFlags flags) {
        return ofFile(file, flags.reads(), flags.writes(), flags.appends());
    }

    /** A file that may be read or written, or whose bytes are written behind its end, at its start. */
    static Description ofFile(GuestFile file, boolean mayRead, boolean mayWrite, boolean appends) {
        return new Description(file, null, mayRead, mayWrite, appends);
    }

    boolean isConsole() {
        return file == null;
    }

    /** The file, or null for the console. */
    GuestFile file() {
        return file;
    }

    /** The side of the console, or null for a file. */
    Side side() {
        return side;
    }

    boolean mayRead() {
        return mayRead;
    }

    boolean mayWrite() {
        return mayWrite;
    }

    boolean appends() {
        return appends;
    }

    void needReading() throws Refusal {
        if (!mayRead) {
            throw new Refusal(Refusal.BAD_DESCRIPTOR);
        }
    }

    void needWriting() throws Refusal {
        if (!mayWrite) {
            throw new Refusal(Refusal.BAD_DESCRIPTOR);
        }
    }

    int place() {
        return place;
    }

    void setPlace(int place) {
        this.place = place;
    }

    /** Where a write of the file begins. */
    int writePlace() {
        return appends ? file.length() : place;
    }

    /** One more descriptor stands for this. */
    void addDescriptor() {
        descriptors++;
    }

    /** One descriptor less stands for this; whether it was the last one. */
    boolean dropDescriptor() {
        descriptors--;
        return descriptors == 0;
    }
}
