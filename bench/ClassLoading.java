import java.util.Enumeration;
import java.util.jar.JarEntry;
import java.util.jar.JarFile;

/** Loads, verifies and prepares all classes of a jar that is on the class path, and prints how many they are and the milliseconds. */
public final class ClassLoading {
    public static void main(String[] words) throws Exception {
        int count = 0;
        long nanos;
        try (JarFile jar = new JarFile(words[0])) {
            long start = System.nanoTime();
            for (Enumeration<JarEntry> entries = jar.entries(); entries.hasMoreElements();) {
                String name = entries.nextElement().getName();
                if (name.endsWith(".class")) {
                    // initialization is what makes a virtual machine verify a class
                    Class.forName(name.substring(0, name.length() - 6).replace('/', '.'));
                    count++;
                }
            }
            nanos = System.nanoTime() - start;
        }
        System.out.println(count + " classes, " + nanos / 1000000 + " ms");
    }
}
