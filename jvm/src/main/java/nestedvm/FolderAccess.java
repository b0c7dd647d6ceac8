package nestedvm;

/** What a program may do with the files of a folder. */
public enum FolderAccess {
    /**
     * Files of the folder are read. A call that would change one is answered with -13, and files that the program makes stand in memory.
     */
    READ,

    /** Files of the folder are read, written, made, renamed and removed. */
    READ_AND_WRITE
}
