package nestedvm;

import java.lang.invoke.MethodHandle;
import java.lang.invoke.MethodHandles;
import java.lang.invoke.MethodHandles.Lookup;
import java.lang.reflect.Constructor;
import java.lang.reflect.Method;

/** Calls of default methods of interfaces, for which a proxy of Java 8 has no way of its own. */
final class DefaultMethods {
    private DefaultMethods() {
    }

    /** What calls a default method as it stands in its interface. */
    static MethodHandle handle(Method method) {
        try {
            Class<?> holder = method.getDeclaringClass();
            return lookupIn(holder).unreflectSpecial(method, holder);
        } catch (ReflectiveOperationException | RuntimeException closed) {
            throw new IllegalArgumentException(method + " cannot be called: its package is not open to nestedvm", closed);
        }
    }

    /** A lookup with the rights of an interface: Java 9 has a method for it, and Java 8 a constructor. */
    private static Lookup lookupIn(Class<?> holder) throws ReflectiveOperationException {
        try {
            Method privateLookup = MethodHandles.class.getMethod("privateLookupIn", Class.class, Lookup.class);
            return (Lookup) privateLookup.invoke(null, holder, MethodHandles.lookup());
        } catch (NoSuchMethodException old) {
            Constructor<Lookup> constructor = Lookup.class.getDeclaredConstructor(Class.class);
            constructor.setAccessible(true);
            return constructor.newInstance(holder);
        }
    }
}
