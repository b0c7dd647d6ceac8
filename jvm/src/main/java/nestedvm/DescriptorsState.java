package nestedvm;

import java.util.ArrayList;
import java.util.List;

/** The descriptors of a stopped run, and what they stand for. */
final class DescriptorsState {
    private static final int NONE = 0xFF;

    private final List<DescriptionState> descriptions;

    /** For each descriptor the number of its description, or NONE. */
    private final byte[] numbers;

    private DescriptorsState(List<DescriptionState> descriptions, byte[] numbers) {
        this.descriptions = descriptions;
        this.numbers = numbers;
    }

    /** Those of what descriptors stand for, null where one is not in use; files in memory are among these. */
    static DescriptorsState of(Description[] descriptors, List<MemoryFile> files) {
        List<Description> seen = new ArrayList<>();
        List<DescriptionState> states = new ArrayList<>();
        byte[] numbers = new byte[descriptors.length];
        for (int i = 0; i < descriptors.length; i++) {
            if (descriptors[i] != null && !seen.contains(descriptors[i])) {
                seen.add(descriptors[i]);
                states.add(DescriptionState.of(descriptors[i], files));
            }
            numbers[i] = (byte) (descriptors[i] == null ? NONE : seen.indexOf(descriptors[i]));
        }
        return new DescriptorsState(states, numbers);
    }

    /** The descriptors, over files in memory, and all that a guest finds. */
    Descriptors restore(List<MemoryFile> files, GuestFiles all) {
        List<Description> restored = new ArrayList<>();
        for (DescriptionState state : descriptions) {
            restored.add(state.restore(files, all));
        }
        Descriptors descriptors = Descriptors.none();
        for (int i = 0; i < numbers.length; i++) {
            if ((numbers[i] & 0xFF) != NONE) {
                descriptors.set(i, restored.get(numbers[i] & 0xFF));
            }
        }
        return descriptors;
    }

    void write(SnapshotWriter writer) {
        writer.putInt(descriptions.size());
        descriptions.forEach(description -> description.write(writer));
        writer.putRaw(numbers);
    }

    private static void needOpen(List<FileState> files, List<DescriptionState> descriptions) {
        for (int i = 0; i < files.size(); i++) {
            int number = i;
            boolean isOpen = descriptions.stream().anyMatch(description -> description.file() == number);
            SnapshotReader.need(isOpen || !files.get(i).name().isEmpty(), "a file has no name and is not open");
        }
    }

    /** Reads what {@link #write} wrote, of a run with these files. Each description has a descriptor, and each file a name or a description. */
    static DescriptorsState read(SnapshotReader reader, List<FileState> files) {
        List<DescriptionState> descriptions = new ArrayList<>();
        int count = reader.numberUpTo(Descriptors.COUNT, "the descriptions");
        for (int i = 0; i < count; i++) {
            descriptions.add(DescriptionState.read(reader, files.size()));
        }
        byte[] numbers = reader.raw(Descriptors.COUNT);
        boolean[] used = new boolean[count];
        for (byte number : numbers) {
            int description = number & 0xFF;
            SnapshotReader.need(description == NONE || description < count, "a descriptor stands for nothing");
            if (description != NONE) {
                used[description] = true;
            }
        }
        for (boolean isUsed : used) {
            SnapshotReader.need(isUsed, "a description has no descriptor");
        }
        needOpen(files, descriptions);
        return new DescriptorsState(descriptions, numbers);
    }
}
