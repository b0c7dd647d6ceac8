import java.io.BufferedReader;
import java.io.IOException;
import java.io.InputStreamReader;
import java.lang.reflect.InvocationTargetException;
import nestedvm.Host;

/**
 * Runs sets of classes: the arguments are a folder and the input of each run as hexadecimal digits. For each name that it reads from input it runs
 * {@code run()V} of {@code Main} of that folder in it, and prints how it ended, what it wrote, and what it wrote to error output.
 */
public final class Machine {
    private Machine() {
    }

    public static void main(String[] words) throws IOException {
        BufferedReader names = new BufferedReader(new InputStreamReader(System.in));
        for (String name = names.readLine(); name != null; name = names.readLine()) {
            Host.begin(Bytes.ofHex(words[1]));
            String end = ended(new FolderLoader(words[0] + "/" + name));
            System.out.println(end + "; " + Bytes.toHex(Host.output()) + "; " + Bytes.toHex(Host.errors()));
            System.out.flush();
        }
    }

    private static String ended(ClassLoader loader) {
        try {
            loader.loadClass("Main").getMethod("run").invoke(null);
            return "exit 0";
        } catch (InvocationTargetException e) {
            return thrown(e.getCause());
        } catch (ReflectiveOperationException | LinkageError e) {
            return e.toString().split("\n")[0];
        }
    }

    /** How a run ended that threw: by the host, by a trap, or by something that a typed class does not throw. */
    private static String thrown(Throwable t) {
        if (t instanceof Host.End) {
            return t.getMessage();
        }
        if (t instanceof NullPointerException) {
            return "trap 1";
        }
        if (t instanceof IndexOutOfBoundsException) {
            return "trap 2";
        }
        if (t instanceof NegativeArraySizeException) {
            return "trap 3";
        }
        return t instanceof ArithmeticException ? "trap 4" : t.toString().split("\n")[0];
    }
}
