package nestedvm;

import java.nio.charset.Charset;
import java.util.Arrays;

/** Texts as C has them: bytes with a zero behind them. */
final class CText {
    private CText() {
    }

    /** The bytes of a text and a zero. */
    static byte[] bytes(String text, Charset charset) {
        if (text.indexOf(0) >= 0) {
            throw new IllegalArgumentException("a text for a program has no character 0");
        }
        byte[] bytes = text.getBytes(charset);
        return Arrays.copyOf(bytes, bytes.length + 1);
    }
}
