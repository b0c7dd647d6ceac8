package nestedvm;

/**
 * A run of a metered program that is made in slices: {@link Call#start} begins it. Between two slices it takes no thread, its state can be kept as a
 * {@link Snapshot}, and further slices may run in other threads. So one thread shares its time among many runs, and a run moves to another virtual machine.
 *
 * <p>The methods take turns. A run that is given up is closed; one that has ended needs no closing.
 */
public final class Execution implements AutoCloseable {
    private final String name;
    private final Program program;
    private final Session session;

    /** The copy of the classes, null once the run has ended or was given up. */
    private Copy copy;

    /** What came of the run, null before it has ended. */
    private Result result;

    /** How many instructions were made, where the run has ended or was given up. */
    private long instructions;

    /** Begins a run in a copy of the program, which is given back where it ends. */
    Execution(String name, Program program, Session session) {
        this.name = name;
        this.program = program;
        this.session = session;
        this.copy = program.takeCopy();
        try {
            if (!copy.begin(session.system())) {
                throw new IllegalArgumentException(name + " has other classes than a translated program, so it is not run in slices");
            }
        } catch (OutOfMemoryError end) {
            end(Traps.answerTo(end));
        } catch (RuntimeException | Error refused) {
            close();
            throw refused;
        }
    }

    /**
     * Lets the program make so many instructions more in this thread, unless it ends before. A deadline of the call begins anew with each slice.
     *
     * @param instructions how many: 1 or more. Where a branch and its delay slot do not both fit, the last one is made in the next slice
     * @return whether the program can go on; if not, {@link #result} tells how it ended
     * @throws IllegalArgumentException where the number is not positive
     * @throws IllegalStateException where the run was given up
     * @throws LinkageError where a class of the program cannot be loaded
     */
    public synchronized boolean runFor(long instructions) {
        if (instructions < 1) {
            throw new IllegalArgumentException("a slice has 1 instruction or more, and not " + instructions);
        }
        return play(instructions, false);
    }

    /**
     * Lets the program go on in this thread until it has made a call of the system, as a read or a write is one, unless it ends before. It then stands
     * before the instruction behind the call.
     *
     * @return whether the program can go on; if not, {@link #result} tells how it ended
     * @throws IllegalStateException where the run was given up
     * @throws LinkageError where a class of the program cannot be loaded
     */
    public synchronized boolean runToCall() {
        return play(Meter.UNBOUNDED, true);
    }

    private boolean play(long instructions, boolean toCall) {
        if (result != null) {
            return false;
        }
        needOpen();
        try {
            session.system().meter().beginSlice(instructions, toCall);
            end(copy.goOn(session.system()));
        } catch (Paused paused) {
            return flush();
        } catch (Stopped stopped) {
            end(stopped.answer());
        } catch (LinkageError refused) {
            close();
            throw refused;
        }
        return false;
    }

    /** Lets output go out at the end of a slice; whether the run goes on. */
    private boolean flush() {
        try {
            session.flush();
            return true;
        } catch (Stopped stopped) {
            end(stopped.answer());
            return false;
        }
    }

    private void needOpen() {
        if (copy == null) {
            throw new IllegalStateException("this run of " + name + " was given up");
        }
    }

    private void end(Answer answer) {
        giveBack();
        result = session.result(name, answer.in(program.functions()));
    }

    private void giveBack() {
        instructions = session.system().meter().made();
        copy.forget();
        program.putBack(copy);
        copy = null;
    }

    /**
     * How many instructions the program has made since it began, in all slices and before the snapshot from which it goes on. The first one is call 0, which
     * {@link Call#start} makes.
     *
     * @return the number
     */
    public synchronized long instructions() {
        return copy == null ? instructions : session.system().meter().made();
    }

    /**
     * How the run ended, and what it left.
     *
     * @return the result
     * @throws IllegalStateException where the program has not ended
     */
    public synchronized Result result() {
        if (result == null) {
            throw new IllegalStateException("this run of " + name + " has not ended");
        }
        return result;
    }

    /**
     * The state of the run, as it is now. The run can go on, and runs that begin with the snapshot do not change it.
     *
     * @return the snapshot, with which {@link Program#call(Snapshot)} goes on
     * @throws IllegalStateException where the program has ended, or has a file of the call's folder open, or has written more than a snapshot holds
     */
    public synchronized Snapshot snapshot() {
        if (result != null) {
            throw new IllegalStateException("this run of " + name + " has ended");
        }
        needOpen();
        return new Snapshot(copy.state(session.system()), session.state());
    }

    /** Gives the run up, unless it has ended: drops its memory and closes its files. To close again does nothing. */
    @Override
    public synchronized void close() {
        if (copy != null) {
            giveBack();
            session.close();
        }
    }
}
