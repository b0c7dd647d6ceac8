package nestedvm;

import java.lang.reflect.Method;
import java.nio.charset.Charset;

/** A function of C as a method of an interface. */
final class BoundFunction {
    private final Library library;
    private final int address;
    private final Parameter[] parameters;
    private final Places places;
    private final ValueType result;

    /** How texts of an open list of arguments are encoded, where the method has such a list. */
    private final Charset openCharset;

    /** The function of a method, whose name or annotation is its name. */
    BoundFunction(Library library, Method method) {
        this(library, method, library.function(nameOf(method)));
    }

    /** The function at an address, with the types of a method. */
    BoundFunction(Library library, Method method, int address) {
        this.library = library;
        this.address = address;
        java.lang.reflect.Parameter[] declared = method.getParameters();
        boolean isOpen = method.isVarArgs() && method.getParameterTypes()[declared.length - 1] == Object[].class;
        Charset charset = Types.charset(method, method.getDeclaringClass());
        this.openCharset = isOpen ? charset : null;
        this.parameters = new Parameter[isOpen ? declared.length - 1 : declared.length];
        this.places = new Places(parameters.length);
        for (int i = 0; i < parameters.length; i++) {
            parameters[i] = Types.parameter(declared[i]);
            places.add(i, parameters[i].isWide());
        }
        this.result = Types.given(method.getReturnType(), charset);
    }

    private static String nameOf(Method method) {
        FunctionName name = method.getAnnotation(FunctionName.class);
        return name == null ? method.getName() : name.value();
    }

    /** Calls the function. */
    Object call(Object[] arguments) {
        synchronized (library) {
            try (CallArea area = library.newCallArea()) {
                int[] words = pass(area, arguments);
                long bits = result.isWide() ? library.callLong(address, words) : library.call(address, words);
                for (int i = 0; i < parameters.length; i++) {
                    parameters[i].takeBack(area, words[places.of(i)], arguments[i]);
                }
                return result.value(library, bits);
            }
        }
    }

    private int[] pass(CallArea area, Object[] arguments) {
        int[] words = new int[places.count()];
        for (int i = 0; i < parameters.length; i++) {
            library.putBits(words, places.of(i), parameters[i].isWide(), parameters[i].pass(area, arguments[i]));
        }
        return openCharset == null ? words : OpenArguments.append(area, words, (Object[]) arguments[parameters.length], openCharset);
    }
}
