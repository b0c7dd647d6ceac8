package nestedvm;

import java.nio.ByteBuffer;
import java.security.MessageDigest;
import java.security.NoSuchAlgorithmException;
import java.util.ArrayList;
import java.util.Arrays;
import java.util.HashMap;
import java.util.List;
import java.util.Map;
import java.util.TreeMap;

/**
 * What a translated program begins with: its pages, and the address of its first instruction. The classes make it once; for each run it is laid down
 * anew, in tables that are there already, and the program is entered behind call 0 (docs/HOST.md).
 */
final class Image {
    private static final int PAGE_WORDS = 1024;
    private static final int PAGE_BYTES = 4096;

    /** Register 29 as a program begins. */
    private static final int STACK_POINTER = 0x7FFFEFF0;

    /** A page other than those of the heap. */
    private static final class Page {
        private final int number;
        private final boolean mayWrite;

        /** The words, null where all are 0. */
        private final int[] words;

        Page(int number, boolean mayWrite, int[] words) {
            this.number = number;
            this.mayWrite = mayWrite;
            this.words = Arrays.equals(words, new int[PAGE_WORDS]) ? null : words;
        }
    }

    private final Begun begun;
    private final int entry;

    /** The turns that are left of a meter's, 0 where there is none. */
    private final int left;

    private final List<Page> pages = new ArrayList<>();

    private Image(Begun begun, int entry, int left) {
        this.begun = begun;
        this.entry = entry;
        this.left = left;
    }

    /** That of a program whose classes have made call 0 and these tables; null where it is none of a translated program. */
    static Image of(Begun begun, int entry, int left, int[][] readable, int[][] writable) {
        if (readable == null || writable == null || readable.length != Tables.PAGES || writable.length != Tables.PAGES) {
            return null;
        }
        Image image = new Image(begun, entry, left);
        for (int number = 0; number < Tables.PAGES; number++) {
            int[] page = readable[number];
            boolean mayWrite = writable[number] != null;
            if (page != null ? page.length != PAGE_WORDS || mayWrite && writable[number] != page : mayWrite) {
                return null;
            }
            if (page != null && !image.isHeap(number)) {
                image.pages.add(new Page(number, mayWrite, page));
            }
        }
        return image;
    }

    private int firstHeapPage() {
        return begun.heapStart() >>> 12;
    }

    private boolean isHeap(int number) {
        return number >= firstHeapPage() && number < firstHeapPage() + begun.heapBytes() / PAGE_BYTES;
    }

    /**
     * Lays the pages down in empty tables.
     *
     * @throws IllegalArgumentException where the heap of another size than at translation has no room below the stack
     */
    private void layDown(Tables tables, int heapPages) {
        for (Page page : pages) {
            tables.put(page.number, page.words == null ? new int[PAGE_WORDS] : page.words.clone(), page.mayWrite);
        }
        for (int i = 0; i < heapPages; i++) {
            int number = firstHeapPage() + i;
            if (tables.has(number)) {
                throw new IllegalArgumentException("a heap of " + heapPages + " pages has no room below the stack: at most " + i + " have");
            }
            tables.put(number, new int[PAGE_WORDS], true);
        }
    }

    /** Puts a program into the state of a snapshot, over empty tables. */
    void goOn(Tables tables, StaticFields fields, GuestSystem system) throws IllegalAccessException {
        MachineState state = system.snapshot().machine();
        if (!Arrays.equals(state.program(), checksum())) {
            throw new IllegalArgumentException("the snapshot is one of another program");
        }
        layDown(tables, state.heapPages());
        state.pages().forEach((number, words) -> {
            int[] page = tables.writable()[number];
            if (page == null) {
                throw SnapshotReader.refused("it has a page that the program may not write");
            }
            System.arraycopy(words, 0, page, 0, PAGE_WORDS);
        });
        putTables(tables, fields);
        state.putRegisters(fields);
        system.goOn(begun.heapStart(), state.heapPages() * PAGE_BYTES, begun.order());
        if (fields.have("left")) {
            system.meter().attach(fields, left, state.instructions(), false);
        }
    }

    private static void putTables(Tables tables, StaticFields fields) throws IllegalAccessException {
        fields.set("rd", tables.readable());
        fields.set("wr", tables.writable());
    }

    /** The state of a program that has begun with this image. */
    MachineState state(Tables tables, StaticFields fields, GuestSystem system) throws IllegalAccessException {
        Map<Integer, int[]> changed = new TreeMap<>();
        Map<Integer, int[]> first = new HashMap<>();
        for (Page page : pages) {
            first.put(page.number, page.words);
        }
        int[] zeros = new int[PAGE_WORDS];
        tables.forEachWritable((number, words) -> {
            int[] before = first.get(number);
            if (!Arrays.equals(words, before == null ? zeros : before)) {
                changed.put(number, words.clone());
            }
        });
        return new MachineState(checksum(), system.meter().made(), MachineState.registersOf(fields), heapPagesOf(system), changed);
    }

    private int heapPagesOf(GuestSystem system) {
        if (system.snapshot() != null) {
            return system.snapshot().machine().heapPages();
        }
        return system.heapPages() < 0 ? begun.heapBytes() / PAGE_BYTES : system.heapPages();
    }

    /** SHA-256 of what the program begins with, but for its heap: its entry, its order of bytes, where its heap and its arguments are, and its pages. */
    private byte[] checksum() {
        try {
            MessageDigest sums = MessageDigest.getInstance("SHA-256");
            sums.update(ints(entry, begun.order(), begun.heapStart(), begun.place()));
            for (Page page : pages) {
                sums.update(ints(page.number, page.mayWrite ? 1 : 0));
                sums.update(ints(page.words == null ? new int[PAGE_WORDS] : page.words));
            }
            return sums.digest();
        } catch (NoSuchAlgorithmException impossible) {
            throw new IllegalStateException(impossible);
        }
    }

    private static byte[] ints(int... values) {
        ByteBuffer bytes = ByteBuffer.allocate(Integer.BYTES * values.length);
        bytes.asIntBuffer().put(values);
        return bytes.array();
    }

    /** Puts a program into its first state, over empty tables: the fields of its main class, with call 0 answered by a system. */
    void begin(Tables tables, StaticFields fields, GuestSystem system) throws IllegalAccessException {
        int heapPages = heapPagesOf(system);
        layDown(tables, heapPages);
        putTables(tables, fields);
        GuestMemory memory = new GuestMemory(tables.readable(), tables.writable());
        fields.setInt("r4", system.answer(memory, 0, begun.place(), begun.heapStart(), heapPages * PAGE_BYTES, begun.order()));
        fields.setInt("r5", begun.place());
        fields.setInt("r29", STACK_POINTER);
        fields.setInt("pc", entry);
        if (fields.have("left")) {
            system.meter().attach(fields, left, 1, true);
        }
    }
}
