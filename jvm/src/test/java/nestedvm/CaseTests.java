package nestedvm;

import java.io.File;
import java.util.Arrays;
import java.util.stream.Stream;
import org.junit.jupiter.api.DynamicContainer;
import org.junit.jupiter.api.DynamicTest;
import org.junit.jupiter.api.TestFactory;
import org.junit.jupiter.api.condition.EnabledIfSystemProperty;

/** Programs from elsewhere, in folders that {@code prepare-cases} has made: each does what {@code nested interp} does with it. */
final class CaseTests {
    @TestFactory
    @EnabledIfSystemProperty(named = "nested.cases", matches = ".+", disabledReason = "CASES is not set")
    Stream<DynamicContainer> cases() {
        File[] folders = new File(System.getProperty("nested.cases")).listFiles();
        Arrays.sort(folders);
        return Arrays.stream(folders).map(folder -> {
            Case guest = new Case(folder.toPath());
            return DynamicContainer.dynamicContainer(folder.getName(), Stream.of(
                DynamicTest.dynamicTest("as nested interp does it", guest::inMemory),
                DynamicTest.dynamicTest("again, with files of a folder", guest::inFolder),
                DynamicTest.dynamicTest("in slices", guest::inSlices),
                DynamicTest.dynamicTest("moved to new classes at ten places", guest::moved),
                DynamicTest.dynamicTest("left at its calls, and gone on with in new classes", guest::leftAtCalls)));
        });
    }
}
