import java.io.BufferedReader;
import java.io.IOException;
import java.io.InputStreamReader;

/**
 * Links classes, which verifies them. For each line of input, a folder and the names of classes in it, it prints {@code ok}, or the error of the
 * first class that does not link.
 */
public final class Verifier {
    private Verifier() {
    }

    public static void main(String[] words) throws IOException {
        BufferedReader lines = new BufferedReader(new InputStreamReader(System.in));
        for (String line = lines.readLine(); line != null; line = lines.readLine()) {
            System.out.println(answer(line.split(" ")));
            System.out.flush();
        }
    }

    private static String answer(String[] words) {
        FolderLoader loader = new FolderLoader(words[0]);
        try {
            for (int i = 1; i < words.length; i++) {
                // the classes have no initializers, so this links them and does no more
                Class.forName(words[i].replace('/', '.'), true, loader);
            }
            return "ok";
        } catch (ReflectiveOperationException | LinkageError e) {
            return e.toString().replace('\n', ' ');
        }
    }
}
