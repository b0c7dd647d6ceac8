/** A program in Java that divides by 0. */
public final class Trap {
    private Trap() {
    }

    /** Runs it. */
    public static void run() {
        nestedvm.Host.call(null, null, 1 / (nestedvm.Host.call(null, null, 12, 0, 0, 0, 0) - 1), 0, 0, 0, 0);
    }
}
