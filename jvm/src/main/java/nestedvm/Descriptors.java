package nestedvm;

import java.util.List;

/** The descriptors of a guest, and what they stand for. */
final class Descriptors {
    /** How many there are. */
    static final int COUNT = 64;

    private final Description[] descriptions = new Description[COUNT];

    private Descriptors() {
    }

    /** None is in use. */
    static Descriptors none() {
        return new Descriptors();
    }

    /** Descriptors 0, 1 and 2 are input, output and error output. */
    static Descriptors ofConsole() {
        Descriptors descriptors = none();
        for (Side side : Side.values()) {
            descriptors.set(side.ordinal(), Description.ofConsole(side));
        }
        return descriptors;
    }

    /** Adds the files in memory that have no name, for which descriptors stand. */
    void addUnnamed(List<MemoryFile> files) {
        for (Description description : descriptions) {
            GuestFile file = description == null ? null : description.file();
            if (file instanceof MemoryFile && file.name() == null && !files.contains(file)) {
                files.add((MemoryFile) file);
            }
        }
    }

    /** What they stand for, where files in memory are among these. */
    DescriptorsState state(List<MemoryFile> files) {
        return DescriptorsState.of(descriptions, files);
    }

    /** What a descriptor stands for, or the call is refused. */
    Description need(int descriptor) throws Refusal {
        if (descriptor < 0 || descriptor >= COUNT || descriptions[descriptor] == null) {
            throw new Refusal(Refusal.BAD_DESCRIPTOR);
        }
        return descriptions[descriptor];
    }

    /** The lowest descriptor that is not in use, or the call is refused. */
    int needFree() throws Refusal {
        for (int descriptor = 0; descriptor < COUNT; descriptor++) {
            if (descriptions[descriptor] == null) {
                return descriptor;
            }
        }
        throw new Refusal(Refusal.TOO_MANY_OPEN);
    }

    /** A descriptor that is not in use stands for this from now on. */
    void set(int descriptor, Description description) {
        descriptions[descriptor] = description;
        description.addDescriptor();
    }

    /** A descriptor that is in use stands for nothing from now on; whether it was the last one of its description. */
    boolean clear(int descriptor) {
        Description description = descriptions[descriptor];
        descriptions[descriptor] = null;
        return description.dropDescriptor();
    }
}
