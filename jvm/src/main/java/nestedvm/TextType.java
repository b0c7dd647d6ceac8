package nestedvm;

import java.nio.charset.Charset;

/** Texts that C gives, by their addresses. */
final class TextType implements ValueType {
    private final Charset charset;

    TextType(Charset charset) {
        this.charset = charset;
    }

    @Override
    public Object value(Library library, long bits) {
        return (int) bits == 0 ? null : new String(library.memory().bytesToZero((int) bits), charset);
    }

    @Override
    public long bits(Library library, Object value) {
        throw new IllegalStateException("a text has no address that outlives a call");
    }
}
