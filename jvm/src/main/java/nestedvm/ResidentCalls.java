package nestedvm;

/**
 * The host's own calls of a resident program (docs/HOST.md). It tells once where it has stubs, and once that it is ready; then each function tells
 * that it has returned, and a stub that it was called.
 */
final class ResidentCalls implements HostCalls {
    private static final int READY = FIRST;
    private static final int RETURNED = FIRST + 1;
    private static final int CALLBACK = FIRST + 2;
    private static final int SECOND = FIRST + 3;
    private static final int STUBS = FIRST + 4;

    private Stubs stubs = Stubs.NONE;
    private boolean isReady;

    /** The calls of the program's functions, null before any can be made. */
    private CallStack stack;

    /** Where the program has told that its stubs stand. */
    Stubs stubs() {
        return stubs;
    }

    /** From now on functions are called, and their calls are those of this stack. */
    void setStack(CallStack stack) {
        this.stack = stack;
    }

    @Override
    public Departure returned() {
        return stack == null ? null : stack.returned();
    }

    @Override
    public int answer(int number, int a0, int a1, int a2, int a3) throws Refusal {
        if (stack == null) {
            return prepare(number, a0, a1, a2, a3);
        }
        switch (number) {
            case RETURNED:
                throw stack.returned(a0, a1, a2);
            case CALLBACK:
                return stack.callback(a0, a1, a2, a3);
            case SECOND:
                return stack.second();
            default:
                throw new Refusal(Refusal.NO_CALL);
        }
    }

    private int prepare(int number, int a0, int a1, int a2, int a3) throws Refusal {
        if (number == READY && !isReady) {
            isReady = true;
            throw new Ready(a0, a1, a2, a3);
        }
        if (number == STUBS) {
            stubs = new Stubs(a0, a1, a2, a3);
            return 0;
        }
        throw new Refusal(Refusal.NO_CALL);
    }
}
