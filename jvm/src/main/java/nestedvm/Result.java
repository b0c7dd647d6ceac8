package nestedvm;

import java.util.Collections;
import java.util.Map;
import java.util.TreeMap;

/**
 * How a call of a program ended, and what it left.
 *
 * <p>That of a function of a {@link Library} which did not return has no files and no output, since the library still has them; of error output it
 * has the last 4,096 bytes that were not taken.
 */
public final class Result {
    private final String name;
    private final Answer answer;
    private final byte[] output;
    private final byte[] errorOutput;
    private final Map<String, MemoryFile> files;

    /** The bytes of the files, once they were asked for. */
    private Map<String, byte[]> contents;

    Result(String name, Answer answer, byte[] output, byte[] errorOutput, Map<String, MemoryFile> files) {
        this.name = name;
        this.answer = answer;
        this.output = output;
        this.errorOutput = errorOutput;
        this.files = files;
    }

    /**
     * How the call ended.
     *
     * @return the ending
     */
    public Ending ending() {
        return answer.ending();
    }

    /**
     * The status, as {@code nested run} has it.
     *
     * @return 0 to 255: where the program left its own status modulo 256; 79 after a fault, 80 after a trap, 74 where input failed, 75
     *     where an output failed, 76 where the folder failed, 124 where the time was over, 85 where a function of Java that it called threw, and 130 where the thread was
     *     interrupted. A program may leave with these, too
     */
    public int status() {
        return answer.status();
    }

    /**
     * The fault in which the program ended.
     *
     * @return the fault, or null where the ending is not {@link Ending#FAULTED}
     */
    public Fault fault() {
        return answer.fault();
    }

    /**
     * The number of the trap in which the program ended.
     *
     * @return 1 to 6, as docs/HOST.md has them: 5 where the stack ended and 6 where the memory did; 0 where the ending is not
     *     {@link Ending#TRAPPED}
     */
    public int trap() {
        return answer.trap();
    }

    /**
     * What was thrown by a stream, by the folder, by a function of Java or by the virtual machine.
     *
     * @return what was thrown, or null where the ending is none of these
     */
    public Throwable cause() {
        return answer.cause();
    }

    /**
     * What {@code nested run} tells on error output behind {@code nested: }.
     *
     * @return as {@code fault 4 pc 00400004 value FFFFFFFF}, without the end of a line; empty where the program left
     */
    public String line() {
        return answer.text();
    }

    /**
     * What the program wrote to output.
     *
     * @return the bytes, which are the caller's; none where output had a stream
     */
    public byte[] output() {
        return output;
    }

    /**
     * What the program wrote to error output.
     *
     * @return the bytes, which are the caller's; none where error output had a stream
     */
    public byte[] errorOutput() {
        return errorOutput;
    }

    /**
     * The files in memory: those that the call gave and the program did not remove, and those that it made. Files of a folder are not
     * among them.
     *
     * @return the bytes of each, which are the caller's, by their names in order. A byte of a name that is no part of UTF-8 is the character
     *     DC00 and its value
     */
    public synchronized Map<String, byte[]> files() {
        if (contents == null) {
            Map<String, byte[]> all = new TreeMap<>();
            files.forEach((file, bytes) -> all.put(file, bytes.ownContent()));
            contents = Collections.unmodifiableMap(all);
        }
        return contents;
    }

    /**
     * A file in memory.
     *
     * @param file its name
     * @return its bytes, which are the caller's, or null where there is none of that name
     */
    public synchronized byte[] file(String file) {
        MemoryFile found = files.get(file);
        return found == null ? null : found.ownContent();
    }

    /**
     * This result, where the program left with status 0.
     *
     * @return this
     * @throws CallFailed where it ended in another way
     */
    public Result orThrow() {
        if (ending() != Ending.EXITED || status() != 0) {
            throw new CallFailed(name, this);
        }
        return this;
    }

    @Override
    public String toString() {
        return name + ": " + ending() + ", status " + status() + (line().isEmpty() ? "" : ", " + line())
            + (fault() == null || fault().function() == null ? "" : " in " + fault().function());
    }
}
