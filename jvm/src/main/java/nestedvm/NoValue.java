package nestedvm;

/** What a function gives that gives nothing. */
final class NoValue implements ValueType {
    static final NoValue INSTANCE = new NoValue();

    private NoValue() {
    }

    @Override
    public Object value(Library library, long bits) {
        return null;
    }

    @Override
    public long bits(Library library, Object value) {
        return 0;
    }
}
