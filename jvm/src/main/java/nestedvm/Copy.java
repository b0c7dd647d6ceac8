package nestedvm;

import java.lang.invoke.MethodHandle;
import java.lang.invoke.MethodHandles;
import java.lang.invoke.MethodHandles.Lookup;
import java.lang.invoke.MethodType;
import java.lang.ref.SoftReference;

/**
 * The classes of a program, loaded once more, with static state of their own. One run at a time is made with a copy.
 *
 * <p>What a run leaves is in the static fields of the main class. When these are 0 and null again the next run begins as the first one
 * did, in classes that are loaded, linked and maybe compiled already.
 */
final class Copy {
    private static final MethodType PLAIN = MethodType.methodType(void.class);
    private static final Lookup PUBLIC = MethodHandles.publicLookup();
    private static final String[] STATE = {"r4", "r5", "r29", "pc", "rd", "wr"};

    private final Class<?> main;
    private final Images images;
    private final StaticFields fields;
    private final MethodHandle run;

    /** Goes on where the fields say that the program stands; made when it is first used. */
    private MethodHandle choose;

    /** The same for a run that is over where the memory ends. */
    private MethodHandle chooseAndClear;

    /** What sets the fields of registers, made when it is first asked for. */
    private Registers registers;

    /** The tables of pages, empty unless a run is made. They are let go where memory is short. */
    private SoftReference<Tables> idleTables = new SoftReference<>(null);

    /** The tables of the run that is made, or null. */
    private Tables tables;

    /** Loads and verifies the main class. The others are loaded as they are used. */
    Copy(ClassSource source, String name, Images images) throws ReflectiveOperationException {
        this(Class.forName(name, true, new ProgramClasses(source, name)), images);
    }

    /** The classes of a program, whose main class is loaded already. */
    Copy(Class<?> main, Images images) throws ReflectiveOperationException {
        this.main = main;
        this.images = images;
        fields = new StaticFields(main);
        run = clearing(method("run"));
    }

    /** A method of the main class that takes nothing and gives nothing. */
    MethodHandle method(String name) throws ReflectiveOperationException {
        return PUBLIC.findStatic(main, name, PLAIN);
    }

    /** The fields of registers, which the main class of a translated program has. */
    Registers registers() throws ReflectiveOperationException {
        if (registers == null) {
            registers = new Registers(this);
        }
        return registers;
    }

    /** What sets a field of the main class that is an int. */
    MethodHandle setter(String name) throws ReflectiveOperationException {
        return PUBLIC.findStaticSetter(main, name, int.class);
    }

    /** What gives a field of the main class that is an int. */
    MethodHandle getter(String name) throws ReflectiveOperationException {
        return PUBLIC.findStaticGetter(main, name, int.class);
    }

    /** The table of pages that a field of the main class has. */
    int[][] table(String name) throws ReflectiveOperationException {
        return (int[][]) main.getField(name).get(null);
    }

    /** Runs the program in this thread to its end, over a system. What stops the run is thrown, and so is what no run ends with. */
    Answer run(GuestSystem system) {
        try {
            if (begin(system)) {
                return goOn(system);
            }
        } catch (OutOfMemoryError end) {
            forget();
            return Traps.answerTo(end);
        }
        if (system.heapPages() != GuestSystem.AS_TRANSLATED || system.snapshot() != null) {
            throw new IllegalArgumentException(
                main.getName() + " is no main class of a translated program, so its heap cannot be chosen, and no snapshot goes on in it");
        }
        needMeter(system);
        return play(run, system);
    }

    /** The same, after which the next run can be made. */
    Answer runAndForget(GuestSystem system) {
        try {
            return run(system);
        } finally {
            forget();
        }
    }

    /** Puts the program into its first state, or into that of a snapshot. Where the classes are not those of a translated program it does not. */
    boolean begin(GuestSystem system) {
        Image image = images.of(this);
        if (image == null) {
            return false;
        }
        tables = idleTables.get();
        if (tables == null) {
            tables = new Tables();
            idleTables = new SoftReference<>(tables);
        }
        needMeter(system);
        try {
            if (system.snapshot() == null) {
                image.begin(tables, fields, system);
            } else {
                image.goOn(tables, fields, system);
            }
            return true;
        } catch (ReflectiveOperationException impossible) {
            throw new IllegalStateException(impossible);
        }
    }

    /** The program, which has begun, goes on in this thread, to its end or that of a slice. What stops it is thrown. */
    Answer goOn(GuestSystem system) {
        if (chooseAndClear == null) {
            chooseAndClear = clearing(choose());
        }
        return play(chooseAndClear, system);
    }

    /** The state of the program between two of its instructions. */
    MachineState state(GuestSystem system) {
        try {
            return images.of(this).state(tables, fields, system);
        } catch (ReflectiveOperationException impossible) {
            throw new IllegalStateException(impossible);
        }
    }

    private void needMeter(GuestSystem system) {
        if (system.meter().isChosen() && !fields.have("left")) {
            throw new IllegalArgumentException(
                main.getName() + " was translated without --meter, so it has no number of instructions, no deadline and no slices");
        }
    }

    /** The method that goes on where the fields say that the program stands, from slice to slice where it is metered. */
    MethodHandle choose() {
        if (choose == null) {
            try {
                MethodHandle plain = method("choose");
                choose = fields.have("left") ? inSlices(plain) : plain;
            } catch (ReflectiveOperationException impossible) {
                throw new IllegalStateException(impossible);
            }
        }
        return choose;
    }

    private static MethodHandle inSlices(MethodHandle method) throws ReflectiveOperationException {
        MethodType type = MethodType.methodType(void.class, MethodHandle.class, Spent.class);
        MethodHandle goOn = MethodHandles.lookup().findStatic(Copy.class, "goOn", type);
        return MethodHandles.catchException(method, Spent.class, goOn.bindTo(method));
    }

    private static void goOn(MethodHandle method, Spent first) throws Throwable {
        Spent spent = first;
        while (spent != null) {
            try {
                method.invokeExact();
                spent = null;
            } catch (Spent next) {
                spent = next;
            }
        }
    }

    /** The image of the program that begins at an entry, or null where its classes are not those of a translated program. */
    Image makeImage(int entry) {
        if (!fields.have(STATE)) {
            return null;
        }
        try {
            Answer other = play(run, GuestSystem.untilBegun());
            if (other.cause() instanceof OutOfMemoryError) {
                throw (OutOfMemoryError) other.cause();
            }
            return null;
        } catch (Begun begun) {
            return imageOf(begun, entry);
        } finally {
            forget();
        }
    }

    private Image imageOf(Begun begun, int entry) {
        try {
            method("choose");
            return Image.of(begun, entry, fields.getInt("left"), table("rd"), table("wr"));
        } catch (ReflectiveOperationException other) {
            return null;
        }
    }

    /** Runs a method of the main class in this thread, over a system. */
    static Answer play(MethodHandle method, GuestSystem system) {
        Object[] answering = Host.answering();
        Object before = answering[0];
        answering[0] = system;
        try {
            method.invokeExact();
            return Answer.exited(0);
        } catch (Ended ended) {
            return ended.answer();
        } catch (Stopped | LinkageError thrown) {
            throw thrown;
        } catch (Throwable thrown) {
            return Traps.answerTo(thrown);
        } finally {
            answering[0] = before;
        }
    }

    /** The fields of the main class are again as they were when it was loaded. Nothing is allocated, since it is also done where the memory has ended. */
    void forget() {
        fields.clear();
        if (tables != null) {
            tables.clear();
            tables = null;
        }
    }

    /**
     * A method that, where the memory ends, gives the program's memory back, and throws on. Whoever catches that may need memory, even to come to its
     * handler.
     */
    private MethodHandle clearing(MethodHandle method) {
        try {
            MethodType type = MethodType.methodType(void.class, OutOfMemoryError.class);
            MethodHandle clear = MethodHandles.lookup().findVirtual(Copy.class, "forgetAndThrow", type).bindTo(this);
            return MethodHandles.catchException(method, OutOfMemoryError.class, clear);
        } catch (ReflectiveOperationException impossible) {
            throw new IllegalStateException(impossible);
        }
    }

    private void forgetAndThrow(OutOfMemoryError end) {
        forget();
        throw end;
    }
}
