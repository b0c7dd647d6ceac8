package nestedvm;

/** Pointers, and what else of Java has an address in a program: functions and structures. Null is 0. */
final class PointerType implements ValueType {
    static final PointerType INSTANCE = new PointerType();

    private PointerType() {
    }

    @Override
    public Object value(Library library, long bits) {
        return library.pointer((int) bits);
    }

    @Override
    public long bits(Library library, Object value) {
        if (value == null) {
            return 0;
        }
        Pointer pointer = pointerOf(value);
        if (pointer.library() != library) {
            throw new IllegalArgumentException(pointer + " is a pointer of another library");
        }
        return pointer.address();
    }

    private static Pointer pointerOf(Object value) {
        if (value instanceof JavaFunction) {
            return ((JavaFunction) value).pointer();
        }
        return value instanceof Structure ? ((Structure) value).pointer() : (Pointer) value;
    }
}
