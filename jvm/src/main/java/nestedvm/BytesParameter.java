package nestedvm;

/** An array of bytes, of which C gets a copy that is there while the function runs, and which is copied back. */
final class BytesParameter implements Parameter {
    private final boolean isIn;
    private final boolean isOut;

    /** One that C reads, writes, or both. */
    BytesParameter(boolean isIn, boolean isOut) {
        this.isIn = isIn;
        this.isOut = isOut;
    }

    @Override
    public long pass(CallArea area, Object value) {
        if (value == null) {
            return 0;
        }
        byte[] bytes = (byte[]) value;
        return isIn ? area.put(bytes) : area.allocate(bytes.length);
    }

    @Override
    public void takeBack(CallArea area, long bits, Object value) {
        if (isOut && value != null) {
            byte[] bytes = (byte[]) value;
            area.library().memory().read((int) bits, bytes, 0, bytes.length);
        }
    }
}
