package sqlite;

import java.lang.reflect.InvocationTargetException;
import java.lang.reflect.Method;
import java.lang.reflect.Proxy;
import java.sql.SQLException;
import java.sql.SQLFeatureNotSupportedException;
import java.sql.Wrapper;
import java.util.HashMap;
import java.util.Map;

/**
 * Objects of the large interfaces of java.sql, of which a class has the part that programs use: a method of the interface is the public method of the
 * same name and parameters of that class, and where it has none the method throws {@link SQLFeatureNotSupportedException}.
 */
final class Partial {
    /** SQLite's result code of a constraint that does not hold. */
    private static final int CONSTRAINT = 19;

    private final Object part;
    private final Map<Method, Method> methods = new HashMap<>();

    private Partial(Class<?> type, Object part) {
        this.part = part;
        for (Method method : type.getMethods()) {
            try {
                methods.put(method, part.getClass().getMethod(method.getName(), method.getParameterTypes()));
            } catch (NoSuchMethodException missing) {
                continue;
            }
        }
    }

    /** An object of an interface, whose methods are those of a part. */
    static <T> T of(Class<T> type, Object part) {
        Partial methods = new Partial(type, part);
        return type.cast(Proxy.newProxyInstance(Partial.class.getClassLoader(), new Class<?>[] {type},
            (proxy, method, arguments) -> methods.invoke(type, proxy, method, arguments)));
    }

    private Object invoke(Class<?> type, Object proxy, Method method, Object[] arguments) throws Throwable {
        if (method.getDeclaringClass() == Object.class) {
            return method.getName().equals("equals") ? proxy == arguments[0] : method.invoke(part, arguments);
        }
        if (method.getDeclaringClass() == Wrapper.class) {
            return unwrapped((Class<?>) arguments[0], type, proxy, method.getName().equals("isWrapperFor"));
        }
        Method own = methods.get(method);
        if (own == null) {
            throw new SQLFeatureNotSupportedException(type.getSimpleName() + "." + method.getName());
        }
        try {
            return own.invoke(part, arguments);
        } catch (InvocationTargetException thrown) {
            throw thrown(thrown.getCause());
        }
    }

    private Object unwrapped(Class<?> wanted, Class<?> type, Object proxy, boolean isAsked) throws SQLException {
        Object found = wanted.isAssignableFrom(type) ? proxy : wanted.isInstance(part) ? part : null;
        if (!isAsked && found == null) {
            throw new SQLException("this is no " + wanted.getName());
        }
        return isAsked ? (Object) (found != null) : found;
    }

    private static Throwable thrown(Throwable cause) {
        if (cause instanceof SqliteException) {
            return failure((SqliteException) cause);
        }
        return cause instanceof RuntimeException ? new SQLException(cause.getMessage(), "HY000", cause) : cause;
    }

    /** What SQLite refuses has SQLite's number; the state is that of integrity constraints, or of errors of any kind. */
    static SQLException failure(SqliteException refusal) {
        return new SQLException(refusal.getMessage(), (refusal.code() & 255) == CONSTRAINT ? "23000" : "HY000", refusal.code(), refusal);
    }
}
