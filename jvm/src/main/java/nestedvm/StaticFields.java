package nestedvm;

import java.lang.reflect.Field;
import java.lang.reflect.Modifier;
import java.util.ArrayList;
import java.util.Arrays;
import java.util.HashMap;
import java.util.List;
import java.util.Map;

/** The public static fields of a class, which hold ints and references. */
final class StaticFields {
    private final List<Field> ints = new ArrayList<>();
    private final List<Field> references = new ArrayList<>();
    private final Map<String, Field> named = new HashMap<>();

    /** Those of a class that was just loaded, which is public. */
    StaticFields(Class<?> holder) throws IllegalAccessException {
        if (!Modifier.isPublic(holder.getModifiers())) {
            throw new IllegalAccessException(holder.getName() + " is not public");
        }
        for (Field field : holder.getFields()) {
            if (Modifier.isStatic(field.getModifiers()) && !Modifier.isFinal(field.getModifiers())) {
                (field.getType() == int.class ? ints : references).add(field);
                named.put(field.getName(), field);
            }
        }
        clear();
    }

    /**
     * Sets the fields to 0 and null, as they are when the class is loaded. References go first, and nothing is allocated once this was
     * done before, since it is also done where the memory has ended.
     */
    void clear() {
        try {
            for (int i = 0; i < references.size(); i++) {
                references.get(i).set(null, null);
            }
            for (int i = 0; i < ints.size(); i++) {
                ints.get(i).setInt(null, 0);
            }
        } catch (IllegalAccessException impossible) {
            throw new IllegalStateException(impossible);
        }
    }

    /** Whether there are fields of all these names. */
    boolean have(String... names) {
        return named.keySet().containsAll(Arrays.asList(names));
    }

    /** Sets a field that is an int. */
    void setInt(String name, int value) throws IllegalAccessException {
        named.get(name).setInt(null, value);
    }

    /** Sets a field that is a reference. */
    void set(String name, Object value) throws IllegalAccessException {
        named.get(name).set(null, value);
    }

    /** The value of a field that is an int, or 0 where there is none of that name. */
    int getInt(String name) throws IllegalAccessException {
        Field field = named.get(name);
        return field == null ? 0 : field.getInt(null);
    }
}
