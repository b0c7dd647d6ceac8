package nestedvm;

/** The flags with which a guest opens a file. */
final class OpenFlags {
    private static final int ACCESS = 3;
    private static final int READ_ONLY = 0;
    private static final int WRITE_ONLY = 1;
    private static final int NO_ACCESS = 3;
    private static final int APPEND = 0x8;
    private static final int CREATE = 0x200;
    private static final int TRUNCATE = 0x400;
    private static final int EXCLUSIVE = 0x800;

    private final int flags;

    /** The flags of a call, which is refused where their access is none. */
    OpenFlags(int flags) throws Refusal {
        if ((flags & ACCESS) == NO_ACCESS) {
            throw new Refusal(Refusal.INVALID);
        }
        this.flags = flags;
    }

    private boolean has(int flag) {
        return (flags & flag) != 0;
    }

    boolean reads() {
        return (flags & ACCESS) != WRITE_ONLY;
    }

    boolean writes() {
        return (flags & ACCESS) != READ_ONLY;
    }

    boolean appends() {
        return has(APPEND);
    }

    boolean creates() {
        return has(CREATE);
    }

    boolean createsOnly() {
        return has(CREATE) && has(EXCLUSIVE);
    }

    boolean empties() {
        return has(TRUNCATE) && writes();
    }
}
