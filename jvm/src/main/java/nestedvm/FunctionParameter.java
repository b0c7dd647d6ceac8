package nestedvm;

/** A function of Java, which has an address while the function of C runs that it is given to. */
final class FunctionParameter implements Parameter {
    private final FunctionType type;

    FunctionParameter(FunctionType type) {
        this.type = type;
    }

    @Override
    public long pass(CallArea area, Object value) {
        return value == null ? 0 : area.add(type.place(area.library(), value)).address();
    }
}
