package nestedvm;

import java.nio.charset.StandardCharsets;

/** Texts as the bytes of UTF-8. */
final class Texts {
    private Texts() {
    }

    /** The text that bytes are. */
    static String text(byte[] bytes) {
        return new String(bytes, StandardCharsets.UTF_8);
    }

    static byte[] bytes(String text) {
        return text.getBytes(StandardCharsets.UTF_8);
    }
}
