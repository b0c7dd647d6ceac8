package nestedvm;

import java.util.Collections;
import java.util.Set;
import java.util.WeakHashMap;

/** The main classes of programs that a loader of the application has loaded. Each has one static state, and so serves one copy of one program. */
final class LoadedClasses {
    private static final Set<Class<?>> TAKEN = Collections.newSetFromMap(new WeakHashMap<>());

    private LoadedClasses() {
    }

    /** The class of a name, verified, or null where the loader has none, or it is taken already. */
    static Class<?> take(ClassLoader loader, String name) {
        try {
            Class<?> main = Class.forName(name, true, loader);
            synchronized (TAKEN) {
                return TAKEN.add(main) ? main : null;
            }
        } catch (ClassNotFoundException missing) {
            return null;
        }
    }
}
