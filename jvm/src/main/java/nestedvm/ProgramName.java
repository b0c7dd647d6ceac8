package nestedvm;

import java.io.InvalidObjectException;
import java.io.ObjectStreamException;
import java.io.Serializable;
import java.lang.ref.SoftReference;
import java.util.HashMap;
import java.util.Map;
import java.util.WeakHashMap;

/** What stands for a program in a stream of objects: the resource of its main class. Where it is read it gives the program. */
final class ProgramName implements Serializable {
    private static final long serialVersionUID = 1;

    /** The programs that were read, by the loader of their resources and the resource of their main class, until memory is short. */
    private static final Map<ClassLoader, Map<String, SoftReference<Program>>> PROGRAMS = new WeakHashMap<>();

    private final String main;

    ProgramName(String main) {
        this.main = main;
    }

    private Object readResolve() throws ObjectStreamException {
        ClassLoader context = Thread.currentThread().getContextClassLoader();
        try {
            return programOf(context == null ? ProgramName.class.getClassLoader() : context, main);
        } catch (RuntimeException refused) {
            InvalidObjectException failure = new InvalidObjectException("there is no program " + main + " where this is read");
            failure.initCause(refused);
            throw failure;
        }
    }

    private static Program programOf(ClassLoader resources, String main) {
        synchronized (PROGRAMS) {
            Map<String, SoftReference<Program>> programs = PROGRAMS.computeIfAbsent(resources, loader -> new HashMap<>());
            programs.values().removeIf(each -> each.get() == null);
            SoftReference<Program> known = programs.get(main);
            Program program = known == null ? null : known.get();
            if (program == null) {
                program = Program.of(resources, main);
                programs.put(main, new SoftReference<>(program));
            }
            return program;
        }
    }
}
