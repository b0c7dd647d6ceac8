package nestedvm;

/**
 * A member of a {@link Structure}. It is read and written in the program's memory.
 *
 * @param <T> the type of its values
 */
public abstract class Field<T> {
    private final Structure structure;
    private final int offset;

    Field(Structure structure, int offset) {
        this.structure = structure;
        this.offset = offset;
    }

    /**
     * Where it stands in its structure.
     *
     * @return the bytes before it, as {@code offsetof} tells
     */
    public final int offset() {
        return offset;
    }

    /**
     * The place of the member.
     *
     * @return the pointer to it
     */
    public final Pointer pointer() {
        return structure.pointer().slice(offset);
    }

    /**
     * Reads it.
     *
     * @return its value; of a pointer null where it is 0
     */
    public abstract T get();

    /**
     * Writes it.
     *
     * @param value its value
     */
    public abstract void set(T value);
}
