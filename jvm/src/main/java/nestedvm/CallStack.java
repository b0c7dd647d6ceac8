package nestedvm;

/**
 * The calls of a resident program's functions that have not returned. The first one is made by Java from outside, and each further one by a
 * function of Java that the program has called, so program and Java lie on the stack in turn, both on that of the thread and on that of the program.
 *
 * <p>A function of Java is called in the midst of the program's classes, which keep registers in local variables. Where it has written nothing and called
 * nothing its value is an answer like that of any call of the system. Otherwise the run is left, and goes on by {@code choose()} with what the stub
 * has put on the stack (docs/HOST.md).
 *
 * <p>The program may jump (longjmp) out of functions over functions of Java. Such a jump shows when the program next comes to the host: its stack
 * pointer is then above that of the last call. So it is thrown on, through the functions of Java, to the call that it belongs to. A function of
 * Java may catch it; once that returns it is thrown again.
 */
final class CallStack {
    /** The most calls that have not returned. */
    static final int MOST_CALLS = 128;

    private static final int ANSWER_BYTES = 8;

    /** The alignment of the stack pointer, less one. */
    static final int STACK_MASK = 7;

    private final String name;
    private final GuestSystem system;
    private final Registers registers;
    private final GuestMemory pages;
    private final ResidentMemory memory;
    private final Callbacks callbacks;
    private final Ready ready;

    /** Where the stack of the next call ends. */
    private int top;

    /** The stack pointer with which the last call was entered. */
    private int entry;

    /** How many calls have not returned. */
    private int depth;

    /** Whether the program runs, so that no function of Java of its own waits for a call. */
    private boolean isRunning;

    /** A jump that is on its way through functions of Java, or null. */
    private Departure jump;

    /** How the program has left in a call that has not told it yet to the calls round it, or null. */
    private Answer left;

    /** What a function of Java has thrown for which the program got a default answer, in the last call, or null. */
    private Throwable failure;

    /** The second word of the last answer. */
    private int second;

    /** The return from the last call, as most returns are. It is made once, since that takes long, and is taken where it is thrown. */
    private final Returned direct = new Returned(this, 0, 0, 0);

    CallStack(String name, GuestSystem system, Registers registers, GuestMemory pages, ResidentMemory memory, Callbacks callbacks, Ready ready) {
        this.name = name;
        this.system = system;
        this.registers = registers;
        this.pages = pages;
        this.memory = memory;
        this.callbacks = callbacks;
        this.ready = ready;
        this.top = ready.stack();
    }

    /** How many calls have not returned. */
    int depth() {
        return depth;
    }

    /** Whether the program runs: then it cannot be called. */
    boolean isRunning() {
        return isRunning;
    }

    /** Where the stack of the next call ends. */
    int top() {
        return top;
    }

    void setTop(int top) {
        this.top = top;
    }

    /** Takes room for so many bytes off the stack of the next call, and gives its address. */
    int lowerTop(int bytes) {
        top = top - bytes & ~STACK_MASK;
        return top;
    }

    // ---- calls by Java

    /** Calls a function, and waits until it has returned. Where it does not return what is thrown tells how it ended. */
    Returned call(int function, int[] words) {
        needTurn();
        int outerTop = top;
        int outerEntry = entry;
        int outerDepth = depth;
        Throwable outerFailure = failure;
        Departure outerJump = jump;
        Object[] answering = Host.answering();
        Object outerSystem = answering[0];
        int own = Registers.stackOf(top, words.length);
        Registers.layOut(memory, own, words);
        entry = own;
        depth = outerDepth + 1;
        failure = null;
        jump = null;
        isRunning = true;
        answering[0] = system;
        try {
            return follow(registers.enter(words, function, ready, own), own);
        } catch (Departure jumping) {
            outerFailure = outerFailure == null ? failure : outerFailure;
            outerJump = jumping.owner() == this ? jumping : outerJump;
            throw jumping;
        } catch (Ended ended) {
            left = ended.answer().ending() == Ending.EXITED ? ended.answer() : left;
            throw ended;
        } catch (Stopped | LinkageError passing) {
            throw passing;
        } catch (Throwable thrown) {
            throw new Stopped(Traps.answerTo(thrown));
        } finally {
            // these are set and not counted, since the thread's stack may end at any place
            answering[0] = outerSystem;
            isRunning = false;
            top = outerTop;
            entry = outerEntry;
            depth = outerDepth;
            failure = outerFailure;
            jump = outerJump;
            memory.setChanged(true);
        }
    }

    private void needTurn() {
        if (isRunning) {
            throw new IllegalStateException("a function of " + name + " runs in this thread: only a function of Java that it calls may call another");
        }
        if (depth == MOST_CALLS) {
            throw new IllegalStateException(name + " has " + MOST_CALLS + " calls that have not returned, and may have no more");
        }
    }

    /** Follows the program until the function of this call has returned. Null stands for the end of the program's run. */
    private Returned follow(Departure first, int own) throws Throwable {
        Departure departure = first;
        while (departure != null) {
            if (isLeft(departure, own)) {
                throw departure;
            }
            jump = null;
            if (departure instanceof Returned) {
                return withoutFailure((Returned) departure);
            }
            departure = goOn((Resumed) departure);
        }
        throw new Ended(Answer.exited(0));
    }

    /** Whether the program has jumped out of this call, into one round it. */
    private boolean isLeft(Departure departure, int own) {
        return departure.owner() != this || depth > 1 && Integer.compareUnsigned(departure.stack(), own) > 0;
    }

    private Returned withoutFailure(Returned returned) {
        if (failure != null) {
            throw new Stopped(Answer.callbackFailed(failure));
        }
        return returned;
    }

    private Departure goOn(Resumed resumed) throws Throwable {
        if (resumed instanceof Called) {
            Called called = (Called) resumed;
            try {
                put(called.words(), called.number(), answer(called.number(), called.words(), called.stack()));
            } catch (Departure jumped) {
                return jumped;
            }
        }
        return registers.goOn(resumed.place(), resumed.stack());
    }

    // ---- calls by the program

    /**
     * A function has returned to the address that is no code, so what it gives is in the fields. Null where the program has come there in the midst of a
     * function, whose stack pointer is below that of its entry.
     */
    Returned returned() {
        Returned returned = registers.returned(this);
        return returned == direct || Integer.compareUnsigned(returned.stack(), entry) > 0 ? returned : null;
    }

    /** A function returns, with the stack pointer with which it was entered. */
    Returned returned(int first, int second, int stack) {
        if (stack != entry) {
            return new Returned(this, first, second, stack);
        }
        direct.set(first, second);
        return direct;
    }

    /** The program calls the function of Java of a stub: its words stand at an address. It has a stack pointer, and a place at which it can go on. */
    int callback(int number, int words, int stack, int place) throws Refusal {
        if (Thread.interrupted()) {
            throw new Stopped(Answer.interrupted());
        }
        pages.needRoom(words, ANSWER_BYTES);
        if (depth > 1 && Integer.compareUnsigned(stack, entry) > 0) {
            throw new Called(this, number, words, place, stack);
        }
        boolean wasChanged = memory.isChanged();
        memory.setChanged(false);
        try {
            long value = answer(number, words, stack);
            if (memory.isChanged()) {
                put(words, number, value);
                throw new Resumed(this, place, stack);
            }
            second = memory.secondOf(value);
            return callbacks.isPair(number) ? memory.firstOf(value) : (int) value;
        } finally {
            memory.setChanged(wasChanged);
        }
    }

    /** The second word of the last answer. */
    int second() {
        return second;
    }

    private void put(int words, int number, long value) {
        if (callbacks.isPair(number)) {
            memory.setPair(words, value);
        } else {
            memory.setWord(words, (int) value);
        }
    }

    /** What a function of Java gives. The calls that it makes have their stack below a place. */
    private long answer(int number, int words, int stack) {
        int outerTop = top;
        top = stack;
        isRunning = false;
        JavaFunction function = null;
        try {
            function = callbacks.get(number);
            long value = function.call(words);
            needGoingOn();
            return value;
        } catch (Departure | Stopped | VirtualMachineError passing) {
            throw passing;
        } catch (Throwable thrown) {
            needGoingOn();
            needStack(thrown);
            return defaultAnswer(function, thrown);
        } finally {
            isRunning = true;
            top = outerTop;
        }
    }

    /** Throws again what a function of Java has caught and must not: a jump over it, or the end of the program. */
    private void needGoingOn() {
        if (left != null) {
            throw new Ended(left);
        }
        if (jump != null) {
            throw jump;
        }
    }

    /** Where the stack or the memory ended in a call by a function of Java, it has ended for the calls round it, too. */
    private static void needStack(Throwable thrown) {
        Result result = thrown instanceof CallFailed ? ((CallFailed) thrown).result() : null;
        if (result != null && result.ending() == Ending.TRAPPED) {
            throw new Stopped(Answer.trapped(result.trap(), result.cause()));
        }
    }

    private long defaultAnswer(JavaFunction function, Throwable thrown) {
        if (function == null || !function.hasDefault()) {
            throw new Stopped(Answer.callbackFailed(thrown));
        }
        if (failure == null) {
            failure = thrown;
        } else if (failure != thrown) {
            failure.addSuppressed(thrown);
        }
        return function.defaultAnswer();
    }
}
