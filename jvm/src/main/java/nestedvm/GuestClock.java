package nestedvm;

import java.nio.ByteBuffer;
import java.time.Clock;
import java.time.Duration;
import java.time.Instant;
import java.util.concurrent.TimeUnit;

/** The clock of a guest: that of the process, or another one, which may stand still. */
final class GuestClock {
    private static final int BYTES = 36;

    /** The nanoseconds for which it waits at once: then it looks whether the run may go on. */
    private static final long PIECE = 20_000_000;

    /** A clock that the caller has given, or null. */
    private final Clock given;

    private long startNanoseconds = System.nanoTime();

    /** The moment at which the run began, or null where a given clock has not yet been asked. */
    private Instant start;

    /** What ends the run where it may not go on. */
    private final Runnable check;

    private GuestClock(Clock given, Instant start, Runnable check) {
        this.given = given;
        this.start = start;
        this.check = check;
    }

    /** The clock of the process, and what ends a run that waits too long. By the system's call it tells the moment at which the run began. */
    static GuestClock running(Runnable check) {
        return new GuestClock(null, Instant.now(), check);
    }

    /** A clock that the caller has given, and what ends a run that waits too long. */
    static GuestClock of(Clock given, Runnable check) {
        return new GuestClock(given, null, check);
    }

    /** The clock of a run that began at a moment, and has run for so many nanoseconds. */
    GuestClock resumed(Instant start, long elapsed) {
        GuestClock clock = new GuestClock(given, start, check);
        clock.startNanoseconds -= elapsed;
        return clock;
    }

    /** The seconds since 1970 that the system's call tells. */
    long seconds() {
        return (given == null ? start : given.instant()).getEpochSecond();
    }

    /** The moment at which the run began, or at which a given clock is first asked. */
    Instant start() {
        if (start == null) {
            start = given.instant();
        }
        return start;
    }

    /**
     * Three times, each with seconds in 8 bytes and nanoseconds in 4: since 1970, since the run began, and of the processor, for which the host takes
     * the time since the run began as well.
     */
    byte[] record() {
        Instant now = given == null ? Instant.now() : given.instant();
        Instant elapsed = Instant.EPOCH.plus(given == null ? elapsed() : Duration.between(start(), now));
        ByteBuffer record = ByteBuffer.allocate(BYTES);
        FileStatus.putTime(record, now);
        FileStatus.putTime(record, elapsed);
        FileStatus.putTime(record, elapsed);
        return record.array();
    }

    /** For how long the run has lasted, by the clock of the process. */
    Duration elapsed() {
        return Duration.ofNanos(System.nanoTime() - startNanoseconds);
    }

    /** Waits for so many nanoseconds, unless the clock stands still. Where the thread is interrupted the run ends. */
    void await(long nanoseconds) {
        if (standsStill()) {
            return;
        }
        long begin = System.nanoTime();
        try {
            for (long rest = nanoseconds; rest > 0; rest = nanoseconds - (System.nanoTime() - begin)) {
                TimeUnit.NANOSECONDS.sleep(Math.min(rest, PIECE));
                check.run();
            }
        } catch (InterruptedException interrupt) {
            throw new Stopped(Answer.interrupted());
        }
    }

    /** Whether the clock is a fixed one: such clocks are equal where their moments are. */
    private boolean standsStill() {
        return given != null && given.equals(Clock.fixed(given.instant(), given.getZone()));
    }
}
