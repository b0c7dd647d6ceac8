package nestedvm;

/** The guest syscalls, whose system calls a test makes from Java. */
final class SystemCalls implements AutoCloseable {
    static final int OPEN = 2;
    static final int READ = 4;
    static final int WRITE = 5;
    static final int SEEK = 6;

    private final Library library;
    private final int call;
    private final int room;

    SystemCalls(Library library) {
        this.library = library;
        this.call = library.function("call");
        this.room = library.call(library.function("room"));
    }

    Library library() {
        return library;
    }

    /** The address of 65,536 bytes. */
    int room() {
        return room;
    }

    /** A call of the system; its fourth word is the third one again. */
    int call(int number, int a, int b, int c) {
        return library.call(call, number, a, b, c);
    }

    /** Opens a file for reading. */
    int open(String name) {
        library.write(room, Texts.bytes(name + "\0"));
        return call(OPEN, room, 0, 0);
    }

    @Override
    public void close() {
        library.close();
    }
}
