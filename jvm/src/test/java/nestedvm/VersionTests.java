package nestedvm;

import static org.junit.jupiter.api.Assertions.assertEquals;

import java.nio.file.Files;
import javax.xml.parsers.DocumentBuilderFactory;
import javax.xml.xpath.XPathFactory;
import org.junit.jupiter.api.DisplayName;
import org.junit.jupiter.api.Test;
import org.w3c.dom.Document;

/** The version of the project. */
final class VersionTests {
    @Test
    @DisplayName("the project of Maven has the repository's version")
    void ofMaven() throws Exception {
        Document project = DocumentBuilderFactory.newInstance().newDocumentBuilder().parse(Guests.TOP.resolve("jvm/pom.xml").toFile());
        String version = XPathFactory.newInstance().newXPath().evaluate("/project/version", project);
        assertEquals(Texts.text(Files.readAllBytes(Guests.TOP.resolve("VERSION"))).trim(), version);
    }
}
