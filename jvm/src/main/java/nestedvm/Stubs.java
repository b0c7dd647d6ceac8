package nestedvm;

/** Where a resident program has its stubs: the addresses that stand for functions of Java. There are two rows of them. */
final class Stubs {
    /** The most stubs of a row that are used. */
    static final int MOST = 256;

    /** A program that calls no functions of Java. */
    static final Stubs NONE = new Stubs(0, 0, 0, 0);

    private final int words;
    private final int pairs;
    private final int count;
    private final int distance;

    /** Rows that begin at two addresses, of so many stubs each, so many bytes apart, as a program tells them. */
    Stubs(int words, int pairs, int count, int distance) {
        this.words = words;
        this.pairs = pairs;
        this.count = count < 0 ? MOST : Math.min(count, MOST);
        this.distance = distance;
    }

    /** How many stubs each row has. */
    int count() {
        return count;
    }

    /** The address of the stub that makes its call with this number: those of words have the lower numbers. */
    int address(int number) {
        return number < count ? words + number * distance : pairs + (number - count) * distance;
    }

    /** Whether the stub of a number gives a pair of words. */
    boolean isPair(int number) {
        return number >= count;
    }
}
