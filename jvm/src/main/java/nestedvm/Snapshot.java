package nestedvm;

/**
 * The state of a run between two instructions: the registers and the memory of the program, its files in memory, its descriptors, its gathered output,
 * and the input that it has not read. {@link Execution#snapshot} makes one, and {@link Program#call(Snapshot)} goes on with it, any number of times, in this
 * virtual machine or in another one: there {@link #bytes} and {@link #of} carry it.
 *
 * <p>It goes on in any translation of the same program, with a meter or without. It does not have streams, a folder, a clock or a source of random bytes of
 * the caller's, nor bounds of instructions and time: the call that goes on names these anew.
 *
 * <p>As bytes it is a sequence of parts. Numbers have their most significant byte first. "Bytes" and "name" stand for their count in 4 bytes and then
 * so many.
 *
 * <table>
 * <caption>The bytes of a snapshot</caption>
 * <tr><th>Part</th><th>What it is</th></tr>
 * <tr><td>8 bytes</td><td>{@code nested}, 0 and 1, the version of this form</td></tr>
 * <tr><td>32 bytes</td><td>SHA-256 of what the program begins with</td></tr>
 * <tr><td>8 bytes</td><td>how many instructions it has made</td></tr>
 * <tr><td>36 words</td><td>r1 to r31, HI, LO, the address of the next instruction, the address of a link of LL, and 1 where there is such a link</td></tr>
 * <tr><td>word</td><td>the pages of its heap</td></tr>
 * <tr><td>word, pages</td><td>how many pages are not as they began; of each its number, in rising order, and 1,024 words</td></tr>
 * <tr><td>word</td><td>the program break</td></tr>
 * <tr><td>8, 4, 8 bytes</td><td>seconds since 1970 and nanoseconds at which it began, and the nanoseconds that it has run since</td></tr>
 * <tr><td>word</td><td>the blocks of its disk</td></tr>
 * <tr><td>word, files</td><td>how many files it has in memory; of each its name, empty where it has none, and its bytes</td></tr>
 * <tr><td>word, folders</td><td>how many folders in memory it has made, and their names</td></tr>
 * <tr><td>word, descriptions</td><td>how many descriptions are open; of each a byte for its kind, then what it is. 0, 1, 2: input, output, error output.
 * 3: a file, by its number among the files. 4: a device, by its name. 5: a record of the host: its name, its bytes, and 36 bytes of status as docs/HOST.md has
 * them. Of the last three follow a byte, of which bit 0 lets it be read, bit 1 be written, and bit 2 appends, and the place in 4 bytes</td></tr>
 * <tr><td>64 bytes</td><td>for each descriptor the number of its description, or FF</td></tr>
 * <tr><td>3 times bytes</td><td>input that was not read, gathered output, gathered error output</td></tr>
 * </table>
 */
public final class Snapshot {
    private final MachineState machine;
    private final SystemState system;

    Snapshot(MachineState machine, SystemState system) {
        this.machine = machine;
        this.system = system;
    }

    /**
     * The snapshot that bytes are. They may come from a stranger: what goes on with them has the memory, files and descriptors that they say, and can do
     * what a program can. All that is taken for them is bounded by their number and by the limits of a call.
     *
     * @param bytes what {@link #bytes} gave
     * @return the snapshot
     * @throws IllegalArgumentException where they are no snapshot: the message says what is wrong
     */
    public static Snapshot of(byte[] bytes) {
        SnapshotReader reader = new SnapshotReader(bytes);
        reader.needStart();
        MachineState machine = MachineState.read(reader);
        SystemState system = SystemState.read(reader);
        reader.needEnd();
        return new Snapshot(machine, system);
    }

    /**
     * This snapshot as bytes. They hold all that the program has in memory, and are not compressed.
     *
     * @return the bytes, which are the caller's
     * @throws IllegalStateException where they would be more than an array has
     */
    public byte[] bytes() {
        SnapshotWriter counting = SnapshotWriter.counting();
        write(counting);
        SnapshotWriter writer = SnapshotWriter.of(counting);
        write(writer);
        return writer.bytes();
    }

    private void write(SnapshotWriter writer) {
        writer.putRaw(SnapshotWriter.START);
        machine.write(writer);
        system.write(writer);
    }

    /**
     * How many instructions the program had made.
     *
     * @return the number
     */
    public long instructions() {
        return machine.instructions();
    }

    MachineState machine() {
        return machine;
    }

    SystemState system() {
        return system;
    }
}
