/**
 * Times calls between Java and native code by the Java Native Interface, which stand beside those of {@link LibraryCalls}: the functions are those of
 * {@code jni.c}.
 */
public final class JniCalls {
    private static final int ROUND = 1_000;

    private JniCalls() {
    }

    /** A function of a number. */
    public interface Next {
        int next(int number);
    }

    private static native int add(int a, int b);

    private static native int length(String text);

    private static native int sum(byte[] bytes, int count);

    private static native int loop(Next next, int count);

    /**
     * Prints a line for each kind of call.
     *
     * @param words the absolute path of the native library
     */
    public static void main(String[] words) {
        System.load(words[0]);
        LibraryCalls.tell("JNI: a call of C", ROUND, count -> {
            for (int i = 0; i < count; i++) {
                add(i, 1);
            }
        });
        LibraryCalls.tell("JNI: with a text of 16 characters", ROUND, count -> {
            for (int i = 0; i < count; i++) {
                length("0123456789abcdef");
            }
        });
        byte[] bytes = new byte[256];
        LibraryCalls.tell("JNI: with an array of 256 bytes, there and back", ROUND, count -> {
            for (int i = 0; i < count; i++) {
                sum(bytes, 0);
            }
        });
        LibraryCalls.tell("JNI: a call of Java by C", ROUND, count -> loop(number -> number + 1, count));
    }
}
