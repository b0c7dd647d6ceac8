package nestedvm;

/**
 * How a run ended, or why none was made: the status with which the launcher ends, and the line that it writes to error output, empty
 * for none.
 */
final class Answer {
    private static final int FAULTED = 79;
    private static final int TRAPPED = 80;
    private static final int TIMED_OUT = 124;
    private static final int INTERRUPTED = 130;

    /** How the run ended, or null where none was made. */
    private final Ending ending;

    private final int status;

    /** What the line tells, empty for no line. */
    private final String text;

    /** The same in more words, for a Java program. */
    private final String explanation;

    private final Fault fault;
    private final int trap;
    private final Throwable cause;

    private Answer(Ending ending, int status, String text, Fault fault, int trap, Throwable cause) {
        this(ending, status, text, text, fault, trap, cause);
    }

    private Answer(Ending ending, int status, String text, String explanation, Fault fault, int trap, Throwable cause) {
        this.explanation = explanation;
        this.ending = ending;
        this.status = status;
        this.text = text;
        this.fault = fault;
        this.trap = trap;
        this.cause = cause;
    }

    private static Answer withoutRun(int status, String text) {
        return withoutRun(status, text, text);
    }

    private static Answer withoutRun(int status, String text, String explanation) {
        return new Answer(null, status, text, explanation, null, 0, null);
    }

    private static Answer failed(Ending ending, int status, String text, Throwable cause) {
        return new Answer(ending, status, text, null, 0, cause);
    }

    static Answer exited(int value) {
        return new Answer(Ending.EXITED, value & 0xFF, "", null, 0, null);
    }

    static Answer faulted(Fault fault) {
        return new Answer(Ending.FAULTED, FAULTED, fault.toString(), fault, 0, null);
    }

    static Answer trapped(int trap, Throwable cause) {
        return new Answer(Ending.TRAPPED, TRAPPED, "trap " + trap, null, trap, cause);
    }

    static Answer interrupted() {
        return failed(Ending.INTERRUPTED, INTERRUPTED, "interrupted", null);
    }

    static Answer timedOut() {
        return failed(Ending.TIMED_OUT, TIMED_OUT, "timed out", null);
    }

    static Answer readFault(Throwable cause) {
        return failed(Ending.INPUT_FAILED, 74, "read fault", cause);
    }

    static Answer writeFault(Throwable cause) {
        return failed(Ending.OUTPUT_FAILED, 75, "", cause);
    }

    static Answer shelfFault(Throwable cause) {
        return failed(Ending.FOLDER_FAILED, 76, "shelf fault", cause);
    }

    static Answer callbackFailed(Throwable cause) {
        return failed(Ending.CALLBACK_FAILED, 85, "callback " + cause, cause);
    }

    static Answer noFolder(String folder, Throwable cause) {
        return new Answer(Ending.FOLDER_FAILED, 76, "shelf fault", "its folder " + folder + " cannot be opened: " + cause, null, 0, cause);
    }

    static Answer usage() {
        return withoutRun(64, "usage 2");
    }

    static Answer noFile(String name) {
        return withoutRun(66, "no file " + name);
    }

    static Answer argumentsTooLong(long bytes) {
        return withoutRun(68, "arguments " + bytes, "its arguments need " + bytes + " bytes, and there are at most " + Arguments.LONGEST_BLOCK);
    }

    static Answer filesTooLarge(long blocks, int most) {
        return withoutRun(69, "files " + blocks, "its files need " + blocks + " blocks of 4096 bytes or more, and there are " + most);
    }

    private static Answer classRefused(String reason) {
        return withoutRun(70, "class " + reason);
    }

    static Answer linkRefused(String reason) {
        return withoutRun(71, "link " + reason);
    }

    private static Answer verifyRefused(String reason) {
        return withoutRun(72, "verify " + reason);
    }

    /** What a class is refused with that the virtual machine does not take. */
    static Answer refused(LinkageError error) {
        if (error instanceof ClassFormatError) {
            return classRefused(error.toString());
        }
        return error instanceof VerifyError ? verifyRefused(error.toString()) : linkRefused(error.toString());
    }

    static Answer noMemory() {
        return withoutRun(77, "no memory");
    }

    /** The same answer, whose fault is in one of these functions. */
    Answer in(Functions functions) {
        return fault == null ? this : faulted(fault.in(functions));
    }

    /** How the run ended, or null where none was made. */
    Ending ending() {
        return ending;
    }

    int status() {
        return status;
    }

    /** What the line tells, empty for no line. */
    String text() {
        return text;
    }

    /** Why no run was made, in words that say what was too much, and how much there may be. */
    String explanation() {
        return explanation;
    }

    /** The line with its end, empty for no line. */
    String line() {
        return text.isEmpty() ? "" : "nested: " + text + "\n";
    }

    /** The fault, or null. */
    Fault fault() {
        return fault;
    }

    /** The number of the trap, or 0. */
    int trap() {
        return trap;
    }

    /** What was thrown, or null. */
    Throwable cause() {
        return cause;
    }
}
