package nestedvm;

/** A parameter that is no more than its words. */
final class ValueParameter implements Parameter {
    private final ValueType type;

    ValueParameter(ValueType type) {
        this.type = type;
    }

    @Override
    public boolean isWide() {
        return type.isWide();
    }

    @Override
    public long pass(CallArea area, Object value) {
        return type.bits(area.library(), value);
    }
}
