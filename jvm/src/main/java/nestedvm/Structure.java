package nestedvm;

/**
 * A structure of C. A class that extends this has a field for each member, in C's order:
 *
 * <pre>{@code
 * final class Point extends Structure {
 *     final Field<Integer> x = intField();
 *     final Field<Integer> y = intField();
 *     final Field<Double> weight = doubleField();
 *
 *     Point(Library library) {
 *         super(library);
 *     }
 *
 *     Point(Pointer place) {
 *         super(place);
 *     }
 * }
 * }</pre>
 *
 * <p>The first constructor makes a structure of its own in the program's heap: it is taken by {@code malloc} when it is first used, is zeros, and
 * {@link #close} gives it back. The second one is a view of a structure that the program has. Either way fields are read and written where they
 * are. Members stand as the compiler has them: each at a multiple of its own size, which of a structure is that of its largest member.
 */
public abstract class Structure implements AutoCloseable {
    private final Library library;

    /** Where it stands, null for a structure of its own before it is first used. */
    private Pointer place;

    /** Its own memory, or null. */
    private Memory memory;

    /** Whether this was given back. */
    private boolean isClosed;

    private int end;
    private int alignment = 1;

    /**
     * A structure of its own.
     *
     * @param library the library whose program it is for
     */
    protected Structure(Library library) {
        this.library = library;
    }

    /**
     * A structure that the program has.
     *
     * @param place where it stands
     */
    protected Structure(Pointer place) {
        this.library = place.library();
        this.place = place;
    }

    /**
     * How many bytes it has, as {@code sizeof} tells.
     *
     * @return the bytes
     */
    public final int size() {
        return roundedUp(end, alignment);
    }

    /**
     * Where it stands. A structure of its own is made now, unless it was before.
     *
     * @return the pointer
     * @throws IllegalStateException where the program has no room for it, or it was closed
     */
    public final Pointer pointer() {
        synchronized (library) {
            if (isClosed) {
                throw new IllegalStateException("the structure is closed");
            }
            if (place == null) {
                memory = library.allocateMemory(size());
                memory.write(0, new byte[size()]);
                place = memory;
            }
            return place;
        }
    }

    /** Gives its memory back, where it has some of its own. It is not used any more then. To close again does nothing. */
    @Override
    public final void close() {
        synchronized (library) {
            isClosed = true;
            if (memory != null) {
                memory.close();
            }
        }
    }

    /**
     * The next member, a {@code signed char}.
     *
     * @return its field
     */
    protected final Field<Byte> byteField() {
        return scalar(ScalarType.BYTE);
    }

    /**
     * The next member, a {@code _Bool}.
     *
     * @return its field
     */
    protected final Field<Boolean> booleanField() {
        return scalar(ScalarType.BOOLEAN);
    }

    /**
     * The next member, a {@code short}.
     *
     * @return its field
     */
    protected final Field<Short> shortField() {
        return scalar(ScalarType.SHORT);
    }

    /**
     * The next member, an {@code unsigned short}.
     *
     * @return its field
     */
    protected final Field<Character> charField() {
        return scalar(ScalarType.CHAR);
    }

    /**
     * The next member, an {@code int} or {@code long}.
     *
     * @return its field
     */
    protected final Field<Integer> intField() {
        return scalar(ScalarType.INT);
    }

    /**
     * The next member, a {@code long long}.
     *
     * @return its field
     */
    protected final Field<Long> longField() {
        return scalar(ScalarType.LONG);
    }

    /**
     * The next member, a {@code float}.
     *
     * @return its field
     */
    protected final Field<Float> floatField() {
        return scalar(ScalarType.FLOAT);
    }

    /**
     * The next member, a {@code double}.
     *
     * @return its field
     */
    protected final Field<Double> doubleField() {
        return scalar(ScalarType.DOUBLE);
    }

    /**
     * The next member, a pointer.
     *
     * @return its field
     */
    protected final Field<Pointer> pointerField() {
        int offset = next(Integer.BYTES, Integer.BYTES);
        return new Field<Pointer>(this, offset) {
            @Override
            public Pointer get() {
                return Structure.this.pointer().getPointer(offset());
            }

            @Override
            public void set(Pointer value) {
                Structure.this.pointer().setInt(offset(), (int) PointerType.INSTANCE.bits(library, value));
            }
        };
    }

    /**
     * The next member, an array of so many bytes, as {@code char name[16]}.
     *
     * @param count how many bytes
     * @return its field, whose value has as many
     */
    protected final Field<byte[]> bytesField(int count) {
        if (count < 0) {
            throw new IllegalArgumentException("an array has at least 0 bytes, and not " + count);
        }
        int offset = next(count, 1);
        return new Field<byte[]>(this, offset) {
            @Override
            public byte[] get() {
                return Structure.this.pointer().read(offset(), count);
            }

            @Override
            public void set(byte[] value) {
                if (value.length != count) {
                    throw new IllegalArgumentException("the array has " + count + " bytes, and not " + value.length);
                }
                Structure.this.pointer().write(offset(), value);
            }
        };
    }

    private <T> Field<T> scalar(ScalarType type) {
        int offset = next(type.size(), type.size());
        return new Field<T>(this, offset) {
            @Override
            @SuppressWarnings("unchecked")
            public T get() {
                return (T) type.read(Structure.this.pointer(), offset());
            }

            @Override
            public void set(T value) {
                type.write(Structure.this.pointer(), offset(), value);
            }
        };
    }

    /** The offset of the next member, which has so many bytes. */
    private int next(int size, int memberAlignment) {
        if (memory != null) {
            throw new IllegalStateException("a structure has all its members before it is used");
        }
        int offset = roundedUp(end, memberAlignment);
        end = Math.addExact(offset, size);
        alignment = Math.max(alignment, memberAlignment);
        return offset;
    }

    private static int roundedUp(int bytes, int multiple) {
        return (bytes + multiple - 1) / multiple * multiple;
    }
}
