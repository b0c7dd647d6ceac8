package nestedvm;

import java.math.BigInteger;
import java.nio.charset.StandardCharsets;
import java.util.Arrays;
import java.util.Collections;
import java.util.HashMap;
import java.util.HashSet;
import java.util.List;
import java.util.Map;

/** The words with which the launcher was started: those of {@code nested run}, but for the limits that a JVM does not count. */
final class Words {
    private static final String END = "--";
    private static final String NAME = "NAME";
    private static final String DISK = "disk";
    private static final String WITH = "with";
    private static final String KEEP = "keep";
    private static final List<String> OPTIONS = Arrays.asList(DISK, WITH, KEEP);

    private static final int MOST_BLOCKS = 65_536;
    private static final int DEFAULT_BLOCKS = 1_024;
    private static final int MOST_NAMES = 64;
    private static final int LONGEST_NAME = 255;

    /** The value of each option that was given, and of the plain word. */
    private final Map<String, String> values = new HashMap<>();

    private final int disk;
    private final List<String> with;
    private final List<String> keep;
    private final List<String> arguments;

    /** Reads the words, or stops where they break the rules. */
    Words(String[] words) {
        List<String> all = Arrays.asList(words);
        int end = all.contains(END) ? all.indexOf(END) : all.size();
        readAll(all.subList(0, end));
        require(values.containsKey(NAME) && isClassName(name()));
        disk = values.containsKey(DISK) ? number(values.get(DISK), MOST_BLOCKS) : DEFAULT_BLOCKS;
        with = fileNames(values.get(WITH));
        keep = fileNames(values.get(KEEP));
        arguments = all.subList(Math.min(end + 1, all.size()), all.size());
        require(!haveZero(arguments));
    }

    /** The name of the class with which the guest begins. */
    String name() {
        return values.get(NAME);
    }

    /** The blocks of the guest's disk. */
    int disk() {
        return disk;
    }

    /** The files that the guest finds. */
    List<String> with() {
        return with;
    }

    /** The files that are stored when the guest has ended. */
    List<String> keep() {
        return keep;
    }

    /** The arguments that the guest has behind its name. */
    List<String> arguments() {
        return arguments;
    }

    private static void require(boolean isLawful) {
        if (!isLawful) {
            throw new Stopped(Answer.usage());
        }
    }

    /** Reads the words before the end, of which each option has its value in the same word or in the next one. */
    private void readAll(List<String> words) {
        String waiting = null;
        for (String word : words) {
            if (!word.startsWith("-")) {
                give(waiting == null ? NAME : waiting, word);
                waiting = null;
            } else {
                require(waiting == null);
                waiting = readOption(word);
            }
        }
        require(waiting == null);
    }

    /** Reads {@code --x} or {@code --x=V}, and gives the option where it waits for its value, else null. */
    private String readOption(String word) {
        int equals = word.indexOf('=');
        String start = equals < 0 ? word : word.substring(0, equals);
        require(start.startsWith("--") && OPTIONS.contains(start.substring(2)));
        String option = start.substring(2);
        if (equals < 0) {
            return option;
        }
        give(option, word.substring(equals + 1));
        return null;
    }

    private void give(String name, String value) {
        require(!value.isEmpty() && !values.containsKey(name));
        values.put(name, value);
    }

    /** A letter, then letters and digits, at most 64 in all. */
    private static boolean isClassName(String text) {
        return text.matches("[A-Za-z][A-Za-z0-9]{0,63}");
    }

    /** The number that 1 to 20 digits write. */
    private static int number(String text, int most) {
        require(text.matches("[0-9]{1,20}"));
        BigInteger number = new BigInteger(text);
        require(number.compareTo(BigInteger.valueOf(most)) <= 0);
        return number.intValue();
    }

    /** The names between the commas, none where the option was not given. */
    private static List<String> fileNames(String text) {
        if (text == null) {
            return Collections.emptyList();
        }
        List<String> names = Arrays.asList(text.split(",", -1));
        require(names.size() <= MOST_NAMES && new HashSet<>(names).size() == names.size() && !haveZero(names));
        for (String name : names) {
            require(!name.isEmpty() && name.getBytes(StandardCharsets.UTF_8).length <= LONGEST_NAME);
        }
        return names;
    }

    private static boolean haveZero(List<String> texts) {
        for (String text : texts) {
            if (text.indexOf(0) >= 0) {
                return true;
            }
        }
        return false;
    }
}
