package nestedvm;

/**
 * The host of generated classes: their calls of the system, and their faults.
 *
 * <p>The classes call it by its name. It answers with the system of the run that the thread makes, so it is of use only where
 * {@link Program}, {@link Library} or {@link Run} runs them. The contract stands in docs/HOST.md, and the calls in docs/CALLS.md.
 */
public final class Host {
    /** Of each thread one element: the system of the run that it makes, null where it makes none. */
    private static final ThreadLocal<Object[]> SYSTEMS = new ThreadLocal<>();

    private Host() {
    }

    /** The place of the system that answers the calls of this thread. Setting it takes no stack, so it can be set back where the stack has ended. */
    static Object[] answering() {
        Object[] place = SYSTEMS.get();
        if (place == null) {
            place = new Object[1];
            SYSTEMS.set(place);
        }
        return place;
    }

    /**
     * Makes a call of the system.
     *
     * @param readable the pages that can be read, by their numbers; null, or an element null, where there is none
     * @param writable the pages that may be written; what they alone have can be read, too
     * @param number the call's number
     * @param a0 its first word
     * @param a1 its second word
     * @param a2 its third word
     * @param a3 its fourth word
     * @return the answer; a negative one is an error. Call 1 never returns
     * @throws IllegalStateException where this thread makes no run
     */
    public static int call(int[][] readable, int[][] writable, int number, int a0, int a1, int a2, int a3) {
        GuestSystem system = (GuestSystem) answering()[0];
        if (system == null) {
            throw new IllegalStateException("classes are run by nestedvm.Program, nestedvm.Library or nestedvm.Run");
        }
        return system.answer(new GuestMemory(readable, writable), number, a0, a1, a2, a3);
    }

    /**
     * Ends the run in a fault. It never returns.
     *
     * @param kind the fault's kind
     * @param pc the address of the instruction at fault
     * @param value the fault's value
     */
    public static void fault(int kind, int pc, int value) {
        GuestSystem system = (GuestSystem) answering()[0];
        if (kind == Meter.KIND && system != null) {
            system.meter().spend(pc);
        }
        if (pc == Registers.RETURN && system != null) {
            system.leaveWhereReturned();
        }
        throw new Ended(Answer.faulted(new Fault(kind, pc, value)));
    }
}
