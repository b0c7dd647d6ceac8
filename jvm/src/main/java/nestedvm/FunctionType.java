package nestedvm;

import java.lang.invoke.MethodHandle;
import java.lang.invoke.MethodHandles;
import java.lang.invoke.MethodType;
import java.lang.reflect.Method;
import java.lang.reflect.Modifier;
import java.nio.charset.Charset;

/** An interface with one method to implement, whose objects are functions of Java that C calls with typed arguments. */
final class FunctionType {
    private static final int WORD_BYTES = 4;
    private static final MethodType CALL = MethodType.methodType(Object.class, Object.class, Object[].class);

    private final MethodHandle handle;
    private final ValueType[] parameters;
    private final Places places;
    private final ValueType result;
    private final Long defaultAnswer;

    private FunctionType(Method method) {
        Class<?>[] types = method.getParameterTypes();
        handle = handle(method, types.length);
        parameters = new ValueType[types.length];
        places = new Places(types.length);
        for (int i = 0; i < types.length; i++) {
            Charset charset = Types.charset(method.getParameters()[i], method, method.getDeclaringClass());
            parameters[i] = Types.given(types[i], charset);
            places.add(i, parameters[i].isWide());
        }
        result = Types.answered(method.getReturnType());
        DefaultAnswer answer = method.getAnnotation(DefaultAnswer.class);
        defaultAnswer = answer == null ? null : bits(answer.value(), method.getReturnType());
    }

    /** That of an interface. */
    static FunctionType of(Class<?> type) {
        try {
            return new FunctionType(implemented(type));
        } catch (IllegalArgumentException wrong) {
            throw new IllegalArgumentException(type.getName() + " is no type of a function of Java: " + wrong.getMessage(), wrong);
        }
    }

    /** The one method that the objects of an interface implement. */
    private static Method implemented(Class<?> type) {
        Method found = null;
        for (Method method : type.getMethods()) {
            if (Modifier.isAbstract(method.getModifiers()) && !isOfObject(method)) {
                if (found != null) {
                    throw new IllegalArgumentException("it has more than one method to implement");
                }
                found = method;
            }
        }
        if (found == null) {
            throw new IllegalArgumentException("it has no method to implement");
        }
        return found;
    }

    private static boolean isOfObject(Method method) {
        try {
            Object.class.getMethod(method.getName(), method.getParameterTypes());
            return true;
        } catch (NoSuchMethodException none) {
            return false;
        }
    }

    private static MethodHandle handle(Method method, int count) {
        try {
            method.setAccessible(true);
            return MethodHandles.lookup().unreflect(method).asSpreader(Object[].class, count).asType(CALL);
        } catch (IllegalAccessException closed) {
            throw new IllegalArgumentException("it cannot be called", closed);
        }
    }

    /** The bits of an answer that is stated as an int. */
    private static long bits(int value, Class<?> type) {
        if (type == double.class) {
            return Double.doubleToRawLongBits(value);
        }
        return type == float.class ? Float.floatToRawIntBits(value) : value;
    }

    /** Gives an object of the interface an address in the program of a library. */
    JavaFunction place(Library library, Object object) {
        Callback callback = arguments -> call(library, object, arguments);
        return library.add(new JavaFunction(library, callback, result.isWide(), defaultAnswer));
    }

    private long call(Library library, Object object, CallbackArguments arguments) throws Exception {
        Object[] values = new Object[parameters.length];
        for (int i = 0; i < values.length; i++) {
            int place = places.of(i);
            values[i] = parameters[i].value(library, parameters[i].isWide() ? arguments.wide(place) : arguments.word(place));
        }
        try {
            return result.bits(library, (Object) handle.invokeExact(object, values));
        } catch (Exception | Error thrown) {
            throw thrown;
        } catch (Throwable thrown) {
            throw new IllegalStateException(thrown);
        }
    }
}
