package nestedvm;

/** Where the arguments of a call stand among its words, as the System V ABI has it: those of two words begin at an even place. */
final class Places {
    private final int[] places;
    private int count;

    /** Places for so many arguments, which are added one by one. */
    Places(int arguments) {
        this.places = new int[arguments];
    }

    /** Finds the place of the argument of a number, behind those before it. */
    void add(int number, boolean isWide) {
        places[number] = isWide ? count + 1 & ~1 : count;
        count = places[number] + (isWide ? 2 : 1);
    }

    /** The place of the first word of an argument. */
    int of(int number) {
        return places[number];
    }

    /** How many words all arguments are. */
    int count() {
        return count;
    }
}
