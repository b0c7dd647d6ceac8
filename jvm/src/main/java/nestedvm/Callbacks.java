package nestedvm;

/** The functions of Java that a resident program can call, by the numbers of its stubs. */
final class Callbacks {
    private final String name;
    private final Stubs stubs;
    private final JavaFunction[] functions;

    Callbacks(String name, Stubs stubs) {
        this.name = name;
        this.stubs = stubs;
        this.functions = new JavaFunction[2 * stubs.count()];
    }

    /** Gives a function a stub of its kind. */
    void add(JavaFunction function) {
        if (stubs.count() == 0) {
            throw new IllegalStateException(name + " has no room for functions of Java: it was not linked with nested_resident");
        }
        int first = function.isWide() ? stubs.count() : 0;
        for (int number = first; number < first + stubs.count(); number++) {
            if (functions[number] == null) {
                functions[number] = function;
                function.place(number, stubs.address(number));
                return;
            }
        }
        String kind = function.isWide() ? "give a long long or a double" : "give one word";
        throw new IllegalStateException(name + " has " + stubs.count() + " functions of Java that " + kind + ", and room for no more: close some");
    }

    /** Takes the stub of a function back, where it has one. */
    void remove(JavaFunction function) {
        if (functions[function.number()] == function) {
            functions[function.number()] = null;
        }
    }

    /** The function that has the stub of a number. */
    JavaFunction get(int number) {
        JavaFunction function = number < 0 || number >= functions.length ? null : functions[number];
        if (function == null) {
            throw new IllegalStateException(name + " calls a function of Java that was closed");
        }
        return function;
    }

    /** Whether the function of a number gives a pair of words. */
    boolean isPair(int number) {
        return stubs.isPair(number);
    }
}
