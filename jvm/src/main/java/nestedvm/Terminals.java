package nestedvm;

import java.io.IOException;
import java.nio.file.Files;
import java.nio.file.InvalidPathException;
import java.nio.file.Path;
import java.nio.file.Paths;
import java.util.LinkedHashMap;
import java.util.Map;

/** Which sides of a process's console are terminals, as a guest finds it in its environment. */
final class Terminals {
    private static final String NAME = "NESTED_TTY";

    /** The variables of the process that tell of its terminal. */
    private static final String[] OF_TERMINAL = {"LINES", "COLUMNS"};

    private Terminals() {
    }

    /** The environment that tells the terminals of the process: the digits of these sides, and their size where the process knows it. */
    static Map<String, String> environment() {
        Map<String, String> environment = new LinkedHashMap<>();
        environment.put(NAME, digits());
        for (String name : OF_TERMINAL) {
            String value = System.getenv(name);
            if (value != null) {
                environment.put(name, value);
            }
        }
        return environment;
    }

    private static String digits() {
        StringBuilder digits = new StringBuilder();
        for (int side = 0; side < 3; side++) {
            if (isTerminal(side)) {
                digits.append(side);
            }
        }
        return digits.toString();
    }

    /** Linux tells for each side what it is. Elsewhere Java has a console where input and output are terminals. */
    private static boolean isTerminal(int side) {
        Path link = Paths.get("/proc/self/fd/" + side);
        try {
            String name = Files.isSymbolicLink(link) ? Files.readSymbolicLink(link).toString() : "";
            return name.isEmpty() ? !Files.exists(Paths.get("/proc/self/fd")) && System.console() != null
                : name.startsWith("/dev/pts/") || name.startsWith("/dev/tty") || name.equals("/dev/console");
        } catch (IOException | InvalidPathException unknown) {
            return false;
        }
    }
}
