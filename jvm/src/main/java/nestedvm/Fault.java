package nestedvm;

import java.util.Locale;

/** The fault in which a program ended. docs/GUEST.md has the kinds. */
public final class Fault {
    private final int kind;
    private final int address;
    private final int value;
    private final String function;

    Fault(int kind, int address, int value) {
        this(kind, address, value, null);
    }

    private Fault(int kind, int address, int value, String function) {
        this.kind = kind;
        this.address = address;
        this.value = value;
        this.function = function;
    }

    /** The same fault, in one of these functions. */
    Fault in(Functions functions) {
        return new Fault(kind, address, value, functions.at(address));
    }

    /**
     * The kind of the fault.
     *
     * @return 1 to 12; 12 is a spent meter (docs/HOST.md)
     */
    public int kind() {
        return kind;
    }

    /**
     * The address of the instruction at fault.
     *
     * @return 32 bits without a sign
     */
    public int address() {
        return address;
    }

    /**
     * What the kind tells beside: an address, a code, or the instruction's word.
     *
     * @return 32 bits without a sign
     */
    public int value() {
        return value;
    }

    /**
     * The function in which the instruction at fault is, and how many bytes behind its start.
     *
     * @return as {@code main+1C}, where the number is hexadecimal; null where the program has told no functions (docs/JAVA.md)
     */
    public String function() {
        return function;
    }

    @Override
    public String toString() {
        return String.format(Locale.ROOT, "fault %s pc %08X value %08X", Integer.toUnsignedString(kind), address, value);
    }
}
