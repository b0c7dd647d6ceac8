package nestedvm;

import java.util.ArrayDeque;
import java.util.Deque;

/** Copies of a program that make no run. The one that was used last is taken first, since its code is the most likely to be compiled. */
final class CopyPool {
    private final Deque<Copy> idle = new ArrayDeque<>();

    /** The most copies that are kept. A further one is let go, and its classes are unloaded. */
    private int most = Math.max(Runtime.getRuntime().availableProcessors(), 2);

    /** From now on at most so many copies are kept. */
    synchronized void keep(int most) {
        this.most = most;
        while (idle.size() > most) {
            idle.removeLast();
        }
    }

    /** A copy, or null where none is idle. */
    synchronized Copy take() {
        return idle.poll();
    }

    /** Puts a copy back whose fields are as new. */
    synchronized void put(Copy copy) {
        if (idle.size() < most) {
            idle.push(copy);
        }
    }
}
