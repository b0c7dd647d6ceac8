package nestedvm;

/** The calls from 64 on, which are the host's own. */
interface HostCalls {
    /** The number of the first one. */
    int FIRST = 64;

    /** No such calls: each is refused. */
    HostCalls NONE = (number, a0, a1, a2, a3) -> {
        throw new Refusal(Refusal.NO_CALL);
    };

    /**
     * What a function leaves the run by that has returned to the address {@link Registers#RETURN}, or null where the host has called none.
     */
    default Departure returned() {
        return null;
    }

    /** The answer to a call with a number and four words. */
    int answer(int number, int a0, int a1, int a2, int a3) throws Refusal;
}
