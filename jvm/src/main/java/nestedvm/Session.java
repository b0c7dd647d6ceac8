package nestedvm;

import java.util.Arrays;
import java.util.Collections;

/** The system of one run, with what it has of the outside. */
final class Session implements AutoCloseable {
    /** The bytes of error output that the result of a failed function shows. */
    private static final int SHOWN_BYTES = 4096;

    private static final byte[] NOTHING = {};

    private final GivenInput input;
    private final Console console;
    private final GuestFiles files;
    private final GuestSystem system;
    private final GatheredOutput output;
    private final GatheredOutput errorOutput;

    Session(GivenInput input, Console console, GuestFiles files, GuestSystem system, GatheredOutput output, GatheredOutput errorOutput) {
        this.input = input;
        this.console = console;
        this.files = files;
        this.system = system;
        this.output = output;
        this.errorOutput = errorOutput;
    }

    GuestSystem system() {
        return system;
    }

    GuestFiles files() {
        return files;
    }

    /**
     * What came of a run that has ended so, with all that it has left. Where what was gathered does not go out, or files do not close, it ended in
     * that; and where there is no memory to tell all of it, in want of memory.
     */
    Result result(String name, Answer answer) {
        Answer ended = answer;
        try {
            if (ended.ending() != Ending.OUTPUT_FAILED) {
                console.flush();
            }
            files.closeAll();
        } catch (Stopped stopped) {
            ended = stopped.answer();
        } catch (OutOfMemoryError end) {
            return emptyResult(name, end);
        }
        return resultOf(name, ended);
    }

    private Result resultOf(String name, Answer answer) {
        try {
            return new Result(name, answer, output.take(), errorOutput.take(), files.leave());
        } catch (OutOfMemoryError end) {
            return emptyResult(name, end);
        }
    }

    private static Result emptyResult(String name, OutOfMemoryError end) {
        return new Result(name, Answer.trapped(Traps.NO_MEMORY, end), NOTHING, NOTHING, Collections.emptyMap());
    }

    /** What came of a function that did not return: the run goes on, so it keeps its files and what it has written. */
    Result failure(String name, Answer answer) {
        return new Result(name, answer, NOTHING, errorOutput.last(SHOWN_BYTES), Collections.emptyMap());
    }

    /** Forgets that an output has failed: what was gathered for it then is lost, and what is written from now on is tried again. */
    void forgetFailure() {
        console.forgetFailure();
    }

    /** Lets what was gathered go out. */
    void flush() {
        console.flush();
    }

    /** What a stopped run has beside its machine. */
    SystemState state() {
        return system.state(input(), output.last(Integer.MAX_VALUE), errorOutput.last(Integer.MAX_VALUE));
    }

    /** The input that was not read. */
    private byte[] input() {
        byte[] ahead = console.ahead();
        byte[] rest = input.rest();
        byte[] all = Arrays.copyOf(ahead, ahead.length + rest.length);
        System.arraycopy(rest, 0, all, ahead.length, rest.length);
        return all;
    }

    /** Takes what was gathered of output since the last time. */
    byte[] takeOutput() {
        return output.take();
    }

    /** Takes what was gathered of error output since the last time. */
    byte[] takeErrorOutput() {
        return errorOutput.take();
    }

    /** Closes the files of the folder, whatever stands for them. It does so also where one fails, which then ended the run. */
    @Override
    public void close() {
        try {
            files.closeAll();
        } catch (Stopped failure) {
            // A run that has ended has told it already, and one that was given up has nobody to tell.
        }
    }
}
