package batch;

import java.io.Serializable;
import nestedvm.Program;

/** What an executor is sent: a program, and how it is called with each piece of data. */
final class Task implements Serializable {
    private static final long serialVersionUID = 1;

    private final Program program;
    private final String[] arguments;

    Task(Program program, String... arguments) {
        this.program = program;
        this.arguments = arguments;
    }

    /** What the program makes of an input. Any number of threads may call this at a time. */
    byte[] perform(byte[] input) {
        return program.call(arguments).input(input).run().orThrow().output();
    }
}
