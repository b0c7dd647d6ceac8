package nestedvm;

import java.lang.reflect.Array;
import java.nio.ByteBuffer;

/** An array of numbers, in the program's order of bytes; else as an array of bytes. */
final class ArrayParameter implements Parameter {
    private final int elementBytes;
    private final boolean isIn;
    private final boolean isOut;

    /** One of elements of so many bytes that C reads, writes, or both. */
    ArrayParameter(int elementBytes, boolean isIn, boolean isOut) {
        this.elementBytes = elementBytes;
        this.isIn = isIn;
        this.isOut = isOut;
    }

    @Override
    public long pass(CallArea area, Object value) {
        if (value == null) {
            return 0;
        }
        ByteBuffer bytes = room(area, value);
        if (!isIn) {
            return area.allocate(bytes.capacity());
        }
        put(bytes, value);
        return area.put(bytes.array());
    }

    @Override
    public void takeBack(CallArea area, long bits, Object value) {
        if (isOut && value != null) {
            ByteBuffer bytes = room(area, value);
            area.library().memory().read((int) bits, bytes.array(), 0, bytes.capacity());
            get(bytes, value);
        }
    }

    private ByteBuffer room(CallArea area, Object array) {
        return ByteBuffer.allocate(Math.multiplyExact(Array.getLength(array), elementBytes)).order(area.library().order());
    }

    private static void put(ByteBuffer bytes, Object array) {
        if (array instanceof int[]) {
            bytes.asIntBuffer().put((int[]) array);
        } else if (array instanceof long[]) {
            bytes.asLongBuffer().put((long[]) array);
        } else if (array instanceof double[]) {
            bytes.asDoubleBuffer().put((double[]) array);
        } else if (array instanceof float[]) {
            bytes.asFloatBuffer().put((float[]) array);
        } else if (array instanceof short[]) {
            bytes.asShortBuffer().put((short[]) array);
        } else {
            bytes.asCharBuffer().put((char[]) array);
        }
    }

    private static void get(ByteBuffer bytes, Object array) {
        if (array instanceof int[]) {
            bytes.asIntBuffer().get((int[]) array);
        } else if (array instanceof long[]) {
            bytes.asLongBuffer().get((long[]) array);
        } else if (array instanceof double[]) {
            bytes.asDoubleBuffer().get((double[]) array);
        } else if (array instanceof float[]) {
            bytes.asFloatBuffer().get((float[]) array);
        } else if (array instanceof short[]) {
            bytes.asShortBuffer().get((short[]) array);
        } else {
            bytes.asCharBuffer().get((char[]) array);
        }
    }
}
