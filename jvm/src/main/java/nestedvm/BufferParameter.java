package nestedvm;

import java.nio.ByteBuffer;

/**
 * A buffer, of whose bytes from its position to its limit C gets a copy that is there while the function runs, and which is copied back. Its position
 * stays. One that is read-only is not copied back.
 */
final class BufferParameter implements Parameter {
    private final boolean isIn;
    private final boolean isOut;

    /** One that C reads, writes, or both. */
    BufferParameter(boolean isIn, boolean isOut) {
        this.isIn = isIn;
        this.isOut = isOut;
    }

    @Override
    public long pass(CallArea area, Object value) {
        if (value == null) {
            return 0;
        }
        ByteBuffer buffer = ((ByteBuffer) value).duplicate();
        int address = area.allocate(buffer.remaining());
        if (isIn) {
            new Pointer(area.library(), address).write(0, buffer);
        }
        return address;
    }

    @Override
    public void takeBack(CallArea area, long bits, Object value) {
        if (isOut && value != null && !((ByteBuffer) value).isReadOnly()) {
            new Pointer(area.library(), (int) bits).read(0, ((ByteBuffer) value).duplicate());
        }
    }
}
