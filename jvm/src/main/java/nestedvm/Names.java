package nestedvm;

import java.io.ByteArrayOutputStream;
import java.nio.ByteBuffer;
import java.nio.CharBuffer;
import java.nio.charset.CharsetDecoder;
import java.nio.charset.CoderResult;
import java.nio.charset.StandardCharsets;

/**
 * Texts of Java as bytes of a guest, in UTF-8, and back without a loss: a byte that is no part of UTF-8 stands as the character DC00 and its value,
 * which no text of UTF-8 has.
 */
final class Names {
    private static final int ESCAPE = 0xDC00;
    private static final int FIRST_ESCAPED = 0xDC80;
    private static final int LAST_ESCAPED = 0xDCFF;

    private Names() {
    }

    /** The bytes that a text stands for. A character that is half of a pair, and no such byte, is a question mark. */
    static byte[] bytesOf(String text) {
        if (!hasEscape(text)) {
            return text.getBytes(StandardCharsets.UTF_8);
        }
        ByteArrayOutputStream bytes = new ByteArrayOutputStream();
        int at = 0;
        while (at < text.length()) {
            int character = text.codePointAt(at);
            if (isEscape(character)) {
                bytes.write(character);
            } else {
                byte[] encoded = new String(Character.toChars(character)).getBytes(StandardCharsets.UTF_8);
                bytes.write(encoded, 0, encoded.length);
            }
            at += Character.charCount(character);
        }
        return bytes.toByteArray();
    }

    private static boolean hasEscape(String text) {
        return text.codePoints().anyMatch(Names::isEscape);
    }

    private static boolean isEscape(int character) {
        return character >= FIRST_ESCAPED && character <= LAST_ESCAPED;
    }

    /** The text that stands for bytes: other bytes have another text. */
    static String textOf(byte[] bytes) {
        CharsetDecoder decoder = StandardCharsets.UTF_8.newDecoder();
        ByteBuffer in = ByteBuffer.wrap(bytes);
        CharBuffer out = CharBuffer.allocate(bytes.length);
        CoderResult end = decoder.decode(in, out, true);
        while (end.isError()) {
            for (int i = 0; i < end.length(); i++) {
                out.put((char) (ESCAPE | in.get() & 0xFF));
            }
            end = decoder.reset().decode(in, out, true);
        }
        out.flip();
        return out.toString();
    }

    /** A name as a guest's path, with a character for each of its bytes. */
    static String pathOf(String name) {
        return new String(bytesOf(name), StandardCharsets.ISO_8859_1);
    }

    /** The name of a guest's path. */
    static String nameOf(String path) {
        return textOf(path.getBytes(StandardCharsets.ISO_8859_1));
    }
}
