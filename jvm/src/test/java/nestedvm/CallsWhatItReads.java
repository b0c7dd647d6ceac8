package nestedvm;

import java.io.IOException;
import java.io.ObjectInputStream;

/** A process that reads programs from a stream of objects and calls each. */
final class CallsWhatItReads {
    private CallsWhatItReads() {
    }

    /** Reads so many programs as the word says from input, and prints for each what its call gives and whether it is the first one again. */
    public static void main(String[] words) throws IOException, ClassNotFoundException {
        Program first = null;
        for (int i = 0; i < Integer.parseInt(words[0]); i++) {
            Program program = (Program) new ObjectInputStream(System.in).readObject();
            first = first == null ? program : first;
            System.out.print(Texts.text(program.call("count", "name").run().output()) + (program == first) + "\n");
        }
    }
}
