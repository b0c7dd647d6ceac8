package nestedvm;

import java.lang.invoke.MethodHandle;
import java.lang.invoke.MethodHandles;
import java.lang.invoke.MethodType;

/**
 * The entry of a resident program: the fields of registers, and the method that goes on from there.
 *
 * <p>Setting the fields, entering the program and catching what it leaves by are one method handle each way, so that the virtual machine compiles
 * them together: a call of a function is then as short as it can be.
 */
final class Registers {
    /**
     * The address to which functions return: there is no page, so the choice of a method itself comes to its fault, and what leaves the run there has no
     * method of the program's code to leave, which takes long. All registers are in fields where a method is chosen.
     */
    static final int RETURN = 0xFFFFFFF0;

    private static final int WORD_BYTES = 4;
    private static final int REGISTER_WORDS = 4;

    /** Takes the words of r4 to r7, r28, r29, r31, pc and lf. */
    private final MethodHandle enter;

    /** Takes the words of r29, pc and lf. */
    private final MethodHandle goOn;

    /** Gives what a function leaves the run by that has returned. */
    private final MethodHandle returned;

    Registers(Copy copy) throws ReflectiveOperationException {
        MethodHandle play = catchingDeparture(copy.choose());
        enter = setting(copy, play, "r4", "r5", "r6", "r7", "r28", "r29", "r31", "pc", "lf");
        goOn = setting(copy, play, "r29", "pc", "lf");
        MethodType type = MethodType.methodType(Returned.class, int.class, int.class, int.class);
        MethodHandle all = MethodHandles.lookup().findVirtual(CallStack.class, "returned", type);
        for (String field : new String[] {"r2", "r3", "r29"}) {
            all = MethodHandles.collectArguments(all, 1, copy.getter(field));
        }
        returned = all;
    }

    /** Gives what a method is left by, and null where it returns. */
    private static MethodHandle catchingDeparture(MethodHandle method) {
        MethodHandle returning = MethodHandles.filterReturnValue(method, MethodHandles.constant(Departure.class, null));
        return MethodHandles.catchException(returning, Departure.class, MethodHandles.identity(Departure.class));
    }

    /** Sets fields, and then does what there is to do. */
    private static MethodHandle setting(Copy copy, MethodHandle then, String... fields) throws ReflectiveOperationException {
        MethodHandle all = then;
        for (int i = fields.length - 1; i >= 0; i--) {
            all = MethodHandles.collectArguments(all, 0, copy.setter(fields[i]));
        }
        return all;
    }

    /** The stack pointer for a function with so many words of arguments, whose stack ends at a place. */
    static int stackOf(int top, int count) {
        return top - WORD_BYTES * Math.max(count, REGISTER_WORDS) & ~CallStack.STACK_MASK;
    }

    /** Lays arguments down as the System V ABI has it: four in registers, the others on the stack above room for these. */
    static void layOut(ResidentMemory memory, int stack, int[] words) {
        for (int i = REGISTER_WORDS; i < words.length; i++) {
            memory.setWord(stack + WORD_BYTES * i, words[i]);
        }
    }

    /**
     * The program goes on at a function, until it leaves; null where its run has ended. No link of LL is left. Whatever else ends the run
     * is thrown.
     */
    Departure enter(int[] words, int function, Ready ready, int stack) throws Throwable {
        int r4 = words.length > 0 ? words[0] : 0;
        int r5 = words.length > 1 ? words[1] : 0;
        int r6 = words.length > 2 ? words[2] : 0;
        int r7 = words.length > 3 ? words[3] : 0;
        return (Departure) enter.invokeExact(r4, r5, r6, r7, ready.global(), stack, RETURN, function, 0);
    }

    /** What a function of some calls leaves the run by that has returned to {@link #RETURN}. */
    Returned returned(CallStack calls) {
        try {
            return (Returned) returned.invokeExact(calls);
        } catch (RuntimeException | Error thrown) {
            throw thrown;
        } catch (Throwable impossible) {
            throw new IllegalStateException(impossible);
        }
    }

    /** The program goes on at a place, of which it needs no register but its stack pointer, until it leaves. */
    Departure goOn(int place, int stack) throws Throwable {
        return (Departure) goOn.invokeExact(stack, place, 0);
    }
}
