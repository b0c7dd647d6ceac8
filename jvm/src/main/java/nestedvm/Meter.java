package nestedvm;

import java.time.Duration;

/**
 * How long a metered program may go on: so many instructions, and until a moment. It runs in slices. At the end of each, which its classes tell by the
 * fault of a spent meter, the host looks whether it may go on, gives it further turns, and enters {@code choose()V} at the instruction that comes
 * next.
 */
final class Meter {
    /** The instructions of a slice. */
    static final int SLICE = 1_000_000;

    /** The kind of the fault of a spent meter. */
    static final int KIND = 12;

    /** A number of instructions that no program makes. */
    static final long UNBOUNDED = Long.MAX_VALUE;

    /** The most turns of a meter at translation, which stand for no bound at all. */
    private static final int MOST_TRANSLATED = Integer.MAX_VALUE;

    /** The instructions that a call has chosen, or null. */
    private final Long chosen;

    /** The time that a call has chosen, or null. */
    private final Duration time;

    /** Whether the caller runs the program in slices of its own, and each ends by {@link Paused}. */
    private final boolean pauses;

    /** The fields of the program, or null where its classes have no meter. */
    private StaticFields fields;

    /** The most instructions of the program, or of a call of a function. */
    private long most;

    /** The instructions that no slice of the caller's has had yet. */
    private long bound;

    /** The instructions of the caller's slice, or of the whole run, that were not given yet. */
    private long rest;

    /** The instructions that were given to the program since it began. */
    private long given;

    /** Whether the slice ends behind the next call of the system. */
    private boolean endsWithCall;

    /** The moment of the end, by the virtual machine's clock of nanoseconds. */
    private long end;
    private boolean hasEnd;

    /** Whether another thread has asked the program to end. */
    private volatile boolean isStopped;

    private Meter(Long chosen, Duration time, boolean pauses) {
        this.chosen = chosen;
        this.time = time;
        this.pauses = pauses;
    }

    /** A meter for a call that may have chosen a number of instructions, and a time, or has null for these. */
    static Meter of(Long chosen, Duration time) {
        return new Meter(chosen, time, false);
    }

    /** The same for a call that is run in slices. */
    static Meter ofSlices(Long chosen, Duration time) {
        return new Meter(chosen, time, true);
    }

    /** A meter for a call that has chosen nothing. */
    static Meter none() {
        return of(null, null);
    }

    /** Whether the call has chosen what only metered classes can keep. */
    boolean isChosen() {
        return chosen != null || time != null || pauses;
    }

    /**
     * The meter of a program that goes on with these fields.
     *
     * @param left how many turns its own meter had behind call 0 when it was translated
     * @param before how many instructions it has made
     * @param hasBegun whether these are of this call, which then has so many less
     */
    void attach(StaticFields fields, int left, long before, boolean hasBegun) {
        this.fields = fields;
        long translated = left + 1L;
        most = chosen != null ? chosen : translated == MOST_TRANSLATED ? UNBOUNDED : translated;
        bound = hasBegun ? most - before : most;
        given = before;
        setLeft(0);
        if (!pauses) {
            begin(bound);
        }
    }

    /** A function of the program is called from outside: it has all instructions, and all of the time. */
    void beginCall() {
        if (fields != null) {
            given -= left();
            setLeft(0);
            begin(most);
        }
    }

    /** A slice of the caller's begins: so many instructions, or fewer where it ends with a call of the system. */
    void beginSlice(long instructions, boolean toCall) {
        long turns = Math.min(instructions, bound);
        bound -= turns;
        endsWithCall = toCall;
        begin(turns);
    }

    private void begin(long turns) {
        rest = turns;
        give();
        hasEnd = time != null;
        if (hasEnd) {
            end = System.nanoTime() + nanosecondsOf(time);
        }
    }

    /** Gives the program turns beside the one that it may still have, where a branch and its slot take two. */
    private void give() {
        int turns = (int) Math.min(rest, SLICE);
        rest -= turns;
        given += turns;
        setLeft(left() + turns);
    }

    private int left() {
        try {
            return fields.getInt("left");
        } catch (IllegalAccessException impossible) {
            throw new IllegalStateException(impossible);
        }
    }

    private void setLeft(int turns) {
        try {
            fields.setInt("left", turns);
        } catch (IllegalAccessException impossible) {
            throw new IllegalStateException(impossible);
        }
    }

    private static long nanosecondsOf(Duration time) {
        try {
            return Math.min(time.toNanos(), Long.MAX_VALUE / 2);
        } catch (ArithmeticException large) {
            return Long.MAX_VALUE / 2;
        }
    }

    /** How many instructions the program has made since it began, where it is metered. */
    long made() {
        return fields == null ? given : given - left();
    }

    /** From now on a metered program ends with its slice. Any thread may say so. */
    void stop() {
        isStopped = true;
    }

    /** The program makes a call of the system: it ends here where it was asked to, or its time is over. */
    void check() {
        if (isStopped && fields != null) {
            throw new Stopped(Answer.interrupted());
        }
        if (hasEnd && System.nanoTime() - end >= 0) {
            throw new Stopped(Answer.timedOut());
        }
    }

    /** The program has made a call of the system. Where its slice ends with that, it has no turns from now on. */
    void endCall() {
        if (endsWithCall) {
            endsWithCall = false;
            bound += rest + left();
            rest = 0;
            given -= left();
            setLeft(0);
        }
    }

    /** The program's turns are spent before the instruction at an address: it goes on there, or ends. This never returns. */
    void spend(int address) {
        if (Thread.interrupted()) {
            throw new Stopped(Answer.interrupted());
        }
        check();
        boolean goesOn = fields != null && rest > 0;
        if (!goesOn && !(pauses && bound > 0)) {
            throw new Ended(Answer.faulted(new Fault(KIND, address, 0)));
        }
        try {
            fields.setInt("pc", address);
        } catch (IllegalAccessException impossible) {
            throw new IllegalStateException(impossible);
        }
        if (!goesOn) {
            throw Paused.PAUSED;
        }
        give();
        throw Spent.SPENT;
    }
}
