package nestedvm;

import java.lang.invoke.MethodHandle;
import java.lang.invoke.MethodHandles;
import java.lang.invoke.MethodType;
import java.lang.reflect.Constructor;

/** Structures of one class, by their addresses. C gives one as a view: an object that is made at its address. */
final class StructureType implements ValueType {
    private static final MethodType CONSTRUCTION = MethodType.methodType(Structure.class, Pointer.class);

    private final MethodHandle constructor;

    /** That of a class with a constructor that takes a pointer. */
    StructureType(Class<?> type) {
        try {
            Constructor<?> found = type.getDeclaredConstructor(Pointer.class);
            found.setAccessible(true);
            constructor = MethodHandles.lookup().unreflectConstructor(found).asType(CONSTRUCTION);
        } catch (ReflectiveOperationException missing) {
            throw new IllegalArgumentException(type + " has no constructor that takes a Pointer", missing);
        }
    }

    @Override
    public Object value(Library library, long bits) {
        if ((int) bits == 0) {
            return null;
        }
        try {
            return (Structure) constructor.invokeExact(library.pointer((int) bits));
        } catch (RuntimeException | Error thrown) {
            throw thrown;
        } catch (Throwable thrown) {
            throw new IllegalStateException(thrown);
        }
    }

    @Override
    public long bits(Library library, Object value) {
        return PointerType.INSTANCE.bits(library, value);
    }
}
