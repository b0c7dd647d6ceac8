package nestedvm;

import java.nio.charset.Charset;
import java.util.Arrays;

/** The arguments of an open list, as {@code printf} takes one: each goes over by its own type, as C has such arguments. */
final class OpenArguments {
    private OpenArguments() {
    }

    /** The words of a call with those of some values behind them. */
    static int[] append(CallArea area, int[] words, Object[] values, Charset charset) {
        if (values == null) {
            return words;
        }
        Parameter[] parameters = new Parameter[values.length];
        int[] at = new int[values.length];
        int count = words.length;
        for (int i = 0; i < values.length; i++) {
            parameters[i] = parameterOf(values[i], charset);
            at[i] = parameters[i].isWide() ? count + 1 & ~1 : count;
            count = at[i] + (parameters[i].isWide() ? 2 : 1);
        }
        int[] all = Arrays.copyOf(words, count);
        for (int i = 0; i < values.length; i++) {
            long bits = parameters[i].pass(area, values[i] instanceof Float ? Double.valueOf((Float) values[i]) : values[i]);
            area.library().putBits(all, at[i], parameters[i].isWide(), bits);
        }
        return all;
    }

    /** Small integers go as ints, and a {@code float} goes as a {@code double}. */
    private static Parameter parameterOf(Object value, Charset charset) {
        if (value instanceof String) {
            return new TextParameter(charset);
        }
        if (value instanceof Long) {
            return new ValueParameter(ScalarType.LONG);
        }
        if (value instanceof Double || value instanceof Float) {
            return new ValueParameter(ScalarType.DOUBLE);
        }
        if (value == null || value instanceof Pointer || value instanceof Structure || value instanceof JavaFunction) {
            return new ValueParameter(PointerType.INSTANCE);
        }
        for (ScalarType each : ScalarType.values()) {
            if (each.isOf(value)) {
                return new ValueParameter(each);
            }
        }
        throw new IllegalArgumentException(value.getClass().getName() + " is no type of an argument in an open list");
    }
}
