package nestedvm;

/** How a call of a program ended. */
public enum Ending {
    /** The program left, with a status of its own. */
    EXITED,

    /** An instruction of the program could not be done: {@link Result#fault} tells which. */
    FAULTED,

    /** The virtual machine threw what no instruction of a program asks for, as it does where the stack or the memory ends. */
    TRAPPED,

    /** The thread was interrupted, and the program then made a call of the system, or came to the end of a slice. */
    INTERRUPTED,

    /** The time that the call gave to a metered program was over. */
    TIMED_OUT,

    /** The stream for input threw. */
    INPUT_FAILED,

    /** The stream for output or for error output threw. */
    OUTPUT_FAILED,

    /** The folder of files failed. */
    FOLDER_FAILED,

    /** A function of Java that the program called threw. */
    CALLBACK_FAILED
}
