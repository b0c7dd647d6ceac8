package nestedvm;

import java.nio.charset.Charset;

/** A text, of which C gets a copy that is there while the function runs. */
final class TextParameter implements Parameter {
    private final Charset charset;

    TextParameter(Charset charset) {
        this.charset = charset;
    }

    @Override
    public long pass(CallArea area, Object value) {
        return value == null ? 0 : area.put(CText.bytes((String) value, charset));
    }
}
