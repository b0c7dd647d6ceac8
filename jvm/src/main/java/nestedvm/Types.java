package nestedvm;

import java.lang.reflect.AnnotatedElement;
import java.lang.reflect.Parameter;
import java.nio.ByteBuffer;
import java.nio.charset.Charset;
import java.nio.charset.StandardCharsets;

/** What the types of Java that stand in interfaces are in C. */
final class Types {
    private Types() {
    }

    /** The encoding that is stated at the nearest of some elements that are inside of one another, the innermost first. */
    static Charset charset(AnnotatedElement... elements) {
        for (AnnotatedElement element : elements) {
            Encoding encoding = element.getAnnotation(Encoding.class);
            if (encoding != null) {
                return Charset.forName(encoding.value());
            }
        }
        return StandardCharsets.UTF_8;
    }

    /** What C gives Java: results of its functions, and arguments of functions of Java. */
    static ValueType given(Class<?> type, Charset charset) {
        if (type == String.class) {
            return new TextType(charset);
        }
        if (type != Structure.class && Structure.class.isAssignableFrom(type)) {
            return new StructureType(type);
        }
        if (type == Pointer.class) {
            return PointerType.INSTANCE;
        }
        return scalar(type);
    }

    /** What a function of Java gives C. */
    static ValueType answered(Class<?> type) {
        return isAddressed(type) ? PointerType.INSTANCE : scalar(type);
    }

    private static ValueType scalar(Class<?> type) {
        ValueType scalar = type == void.class ? NoValue.INSTANCE : ScalarType.of(type);
        if (scalar == null) {
            throw new IllegalArgumentException(type.getName() + " is no type of a value in C");
        }
        return scalar;
    }

    private static boolean isAddressed(Class<?> type) {
        return Pointer.class.isAssignableFrom(type) || Structure.class.isAssignableFrom(type) || type == JavaFunction.class;
    }

    /** A parameter of a method that calls a function of C. */
    static nestedvm.Parameter parameter(Parameter parameter) {
        Class<?> type = parameter.getType();
        boolean isIn = !parameter.isAnnotationPresent(Out.class);
        boolean isOut = !parameter.isAnnotationPresent(In.class) || !isIn;
        isIn |= parameter.isAnnotationPresent(In.class);
        if (type == String.class) {
            Class<?> holder = parameter.getDeclaringExecutable().getDeclaringClass();
            return new TextParameter(charset(parameter, parameter.getDeclaringExecutable(), holder));
        }
        if (type == byte[].class) {
            return new BytesParameter(isIn, isOut);
        }
        if (type.isArray() && ScalarType.of(type.getComponentType()) != null && type != boolean[].class) {
            return new ArrayParameter(ScalarType.of(type.getComponentType()).size(), isIn, isOut);
        }
        if (type == ByteBuffer.class) {
            return new BufferParameter(isIn, isOut);
        }
        if (type.isInterface()) {
            return new FunctionParameter(FunctionType.of(type));
        }
        return new ValueParameter(answered(type));
    }
}
