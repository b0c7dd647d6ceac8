package nestedvm;

import java.io.ByteArrayOutputStream;
import java.security.SecureRandom;
import java.util.Arrays;
import java.util.List;
import java.util.Map;
import java.util.Random;

/**
 * The files that the host answers, beside those of the guest: devices, and below /dev/nested/ the clock, the environment and folders (docs/HOST.md). A
 * name with a slash behind it stands for a folder.
 */
final class HostFiles {
    /** With what the names of all devices begin. */
    static final String DEVICES = "/dev/";

    private static final String ZERO = "/dev/zero";
    private static final List<String> RANDOM = Arrays.asList("/dev/random", "/dev/urandom");

    private static final String OWN = "/dev/nested/";
    private static final String STATUS = "status/";
    private static final String LIST = "list/";
    private static final String SLEEP = "sleep/";

    /** The bytes of the longest number of nanoseconds. */
    private static final int LONGEST_NUMBER = 18;

    private final GuestClock clock;
    private Random random;
    private final Map<String, String> environment;

    /** Files over a clock, a source of random bytes, or null for one that nobody can guess, and values by the names of the environment. */
    HostFiles(GuestClock clock, Random random, Map<String, String> environment) {
        this.clock = clock;
        this.random = random;
        this.environment = environment;
    }

    /** Those of a process, whose terminals the environment tells. */
    static HostFiles ofProcess() {
        return new HostFiles(GuestClock.running(() -> { }), null, Terminals.environment());
    }

    GuestClock clock() {
        return clock;
    }

    /** The file of a name, or null where the host has none. */
    HostFile find(String name, Folders folders) throws Refusal {
        if (isDevice(name)) {
            return device(name);
        }
        return name.startsWith(OWN) ? findOwn(name, name.substring(OWN.length()), folders) : null;
    }

    /** Whether a name is that of a device, which has bytes without an end. */
    static boolean isDevice(String name) {
        return name.equals(ZERO) || RANDOM.contains(name);
    }

    /** The device of such a name. */
    HostFile device(String name) {
        return new HostStream(name, name.equals(ZERO) ? bytes -> { } : random()::nextBytes);
    }

    /** The source of random bytes. A secure one takes a while to make, and is made when it is first asked for. */
    private Random random() {
        if (random == null) {
            random = new SecureRandom();
        }
        return random;
    }

    private HostFile findOwn(String name, String own, Folders folders) throws Refusal {
        if (own.equals("clock")) {
            return record(name, clock.record());
        }
        if (own.equals("environment")) {
            return record(name, environment());
        }
        if (own.equals("folder")) {
            return record(name, folders.start());
        }
        if (own.startsWith(SLEEP)) {
            clock.await(number(own.substring(SLEEP.length())));
            return record(name, new byte[0]);
        }
        if (own.startsWith(STATUS)) {
            FileStatus status = folders.status(own.substring(STATUS.length()));
            return status == null ? null : record(name, status.record());
        }
        return own.startsWith(LIST) ? folders.list(name, own.substring(LIST.length())) : null;
    }

    private static HostFile record(String name, byte[] bytes) {
        return new HostRecord(name, bytes, FileStatus.device());
    }

    /** A number of 1 to 18 digits, or the call is refused. */
    private static long number(String digits) throws Refusal {
        if (!digits.matches("[0-9]{1," + LONGEST_NUMBER + "}")) {
            throw new Refusal(Refusal.NO_ENTRY);
        }
        return Long.parseLong(digits);
    }

    /** The words NAME=VALUE, each with a zero behind it. */
    private byte[] environment() {
        ByteArrayOutputStream words = new ByteArrayOutputStream();
        for (Map.Entry<String, String> word : environment.entrySet()) {
            byte[] bytes = Names.bytesOf(word.getKey() + "=" + word.getValue());
            words.write(bytes, 0, bytes.length);
            words.write(0);
        }
        return words.toByteArray();
    }

    /** The descriptor of which a name asks the status, or -1. */
    static int descriptorOf(String name) {
        String start = OWN + "descriptor/";
        String digits = name.startsWith(start) ? name.substring(start.length()) : "";
        return digits.matches("[0-9]{1,2}") ? Integer.parseInt(digits) : -1;
    }
}
