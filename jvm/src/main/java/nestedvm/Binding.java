package nestedvm;

import java.lang.invoke.MethodHandle;
import java.lang.reflect.InvocationHandler;
import java.lang.reflect.Method;
import java.lang.reflect.Modifier;
import java.lang.reflect.Proxy;
import java.util.HashMap;
import java.util.Map;

/** The functions of a library by the methods of an interface. */
final class Binding implements InvocationHandler {
    private final String name;
    private final Map<Method, BoundFunction> functions = new HashMap<>();
    private final Map<Method, MethodHandle> defaults = new HashMap<>();

    /** The functions of the names of methods, or where an address is given the one function that stands there. */
    private Binding(Library library, Class<?> type, Integer address) {
        this.name = library.name() + " as " + type.getName();
        for (Method method : type.getMethods()) {
            if (Modifier.isAbstract(method.getModifiers())) {
                functions.put(method, bind(library, method, address));
            } else if (method.isDefault()) {
                defaults.put(method, DefaultMethods.handle(method));
            }
        }
        if (address != null && functions.size() != 1) {
            throw new IllegalArgumentException(type.getName() + " has " + functions.size() + " methods to implement, and not one");
        }
    }

    private static BoundFunction bind(Library library, Method method, Integer address) {
        try {
            return address == null ? new BoundFunction(library, method) : new BoundFunction(library, method, address);
        } catch (IllegalArgumentException wrong) {
            throw new IllegalArgumentException(method + ": " + wrong.getMessage(), wrong);
        }
    }

    /** An object of an interface whose methods are functions of a library: those of their names, or where an address is given the one there. */
    static <T> T of(Library library, Class<T> type, Integer address) {
        if (!type.isInterface()) {
            throw new IllegalArgumentException(type.getName() + " is no interface");
        }
        Binding binding = new Binding(library, type, address);
        return type.cast(Proxy.newProxyInstance(type.getClassLoader(), new Class<?>[] {type}, binding));
    }

    @Override
    public Object invoke(Object proxy, Method method, Object[] arguments) throws Throwable {
        BoundFunction function = functions.get(method);
        if (function != null) {
            return function.call(arguments);
        }
        MethodHandle handle = defaults.get(method);
        if (handle != null) {
            return handle.bindTo(proxy).invokeWithArguments(arguments == null ? new Object[0] : arguments);
        }
        return ofObject(proxy, method, arguments);
    }

    private Object ofObject(Object proxy, Method method, Object[] arguments) {
        switch (method.getName()) {
            case "equals":
                return proxy == arguments[0];
            case "hashCode":
                return System.identityHashCode(proxy);
            default:
                return name;
        }
    }
}
