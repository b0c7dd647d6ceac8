package nestedvm;

import java.util.ArrayList;
import java.util.List;

/**
 * What a call by an interface has in the program's memory while it runs: texts and arrays, and addresses of functions. Little stands on the program's
 * stack, and much in its heap.
 */
final class CallArea implements AutoCloseable {
    /** The most bytes that stand on the stack. */
    private static final int STACK_BYTES = 2048;

    private final Library library;
    private final CallStack stack;
    private final int top;

    /** How many such areas there were before. */
    private final int outerAreas;

    private int stackBytes;

    /** What was made for the call and is given back behind it; null for nothing yet. */
    private List<AutoCloseable> made;

    CallArea(Library library, CallStack stack, int outerAreas) {
        this.library = library;
        this.outerAreas = outerAreas;
        this.stack = stack;
        this.top = stack.top();
    }

    Library library() {
        return library;
    }

    /** Room for so many bytes. */
    int allocate(int bytes) {
        if (bytes <= STACK_BYTES - stackBytes) {
            stackBytes += bytes;
            return stack.lowerTop(bytes);
        }
        return add(library.allocateMemory(bytes)).address();
    }

    /** Puts bytes into the program's memory. */
    int put(byte[] bytes) {
        int address = allocate(bytes.length);
        library.memory().write(address, bytes, 0, bytes.length);
        return address;
    }

    /** Something that is closed when the call has ended. */
    <T extends AutoCloseable> T add(T each) {
        if (made == null) {
            made = new ArrayList<>();
        }
        made.add(each);
        return each;
    }

    /** Gives back what was made. */
    @Override
    public void close() {
        stack.setTop(top);
        try {
            if (made != null) {
                for (AutoCloseable each : made) {
                    close(each);
                }
            }
        } finally {
            library.setAreas(outerAreas);
        }
    }

    private static void close(AutoCloseable each) {
        try {
            each.close();
        } catch (RuntimeException thrown) {
            throw thrown;
        } catch (Exception impossible) {
            throw new IllegalStateException(impossible);
        }
    }
}
