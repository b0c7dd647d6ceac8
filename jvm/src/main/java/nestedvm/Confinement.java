package nestedvm;

import java.util.Arrays;
import java.util.HashSet;
import java.util.Set;
import java.util.regex.Pattern;

/**
 * What the classes of a program may name: {@code Object}, {@code String}, {@code Host} and each other, and of the first three only the members that
 * translated classes use. A class file that names anything else, by its constant pool or its members, is refused before the virtual machine sees it.
 */
final class Confinement {
    private static final String OBJECT = "java/lang/Object";
    private static final String STRING = "java/lang/String";
    private static final String HOST = "nestedvm/Host";
    private static final Set<String> MEMBERS = new HashSet<>(Arrays.asList(
        OBJECT + ".<init>:()V", STRING + ".length:()I", STRING + ".charAt:(I)C", HOST + ".call:([[I[[IIIIII)I", HOST + ".fault:(III)V"));

    private static final int PUBLIC_STATIC = 0x0009;
    private static final int NATIVE = 0x0100;

    private final String main;
    private final Pattern further;

    /** The confinement of the program of a main class. */
    Confinement(String main) {
        this.main = main;
        this.further = Pattern.compile(Pattern.quote(main) + "_D?[0-9]{1,9}");
    }

    /** Whether a class of this name is one of the program: NAME, NAME_0 and on, and NAME_D0 and on. */
    boolean isOwn(String name) {
        return name.equals(main) || further.matcher(name).matches();
    }

    /**
     * Refuses a class file that names what it may not.
     *
     * @throws LinkageError where it does, or is no class file
     */
    void check(String name, byte[] file) {
        try {
            ClassFile read = new ClassFile(file);
            checkPool(read.pool());
            checkFields(name, read);
            checkMethods(read);
        } catch (IndexOutOfBoundsException malformed) {
            throw new ClassFormatError(name + " has an index without a constant");
        } catch (ClassFormatError refused) {
            throw new ClassFormatError(name + " has " + refused.getMessage());
        } catch (Refused refused) {
            throw new LinkageError(name + " " + refused.reason);
        }
    }

    /** A class file is refused. */
    private static final class Refused extends Exception {
        private static final long serialVersionUID = 1;

        private final String reason;

        Refused(String reason) {
            super(null, null, false, false);
            this.reason = reason;
        }

        static Refused naming(String what) {
            return new Refused("names " + what + ", and a class of a program names only Object, String, Host and classes of its program");
        }
    }

    /** Classes come first, so that what refers to members of the program's own is known by its index. */
    private void checkPool(ConstantPool pool) throws Refused {
        boolean[] isOwn = new boolean[pool.size()];
        boolean[] isChecked = new boolean[pool.size()];
        for (int index = 1; index < pool.size(); index++) {
            if (pool.tag(index) == ConstantPool.CLASS) {
                String name = pool.text(pool.first(index));
                checkClass(name);
                isOwn[index] = isOwn(name);
            }
        }
        for (int index = 1; index < pool.size(); index++) {
            if (pool.isMember(index) && !isOwn[pool.first(index)]) {
                checkReference(pool, pool.first(index), pool.second(index));
            } else if (pool.tag(index) == ConstantPool.NAME_AND_TYPE && !isChecked[pool.second(index)]) {
                checkDescriptor(pool.text(pool.second(index)));
                isChecked[pool.second(index)] = true;
            }
        }
    }

    private static void checkReference(ConstantPool pool, int holder, int member) throws Refused {
        String reference = pool.text(pool.first(holder)) + "." + pool.text(pool.first(member)) + ":" + pool.text(pool.second(member));
        if (!MEMBERS.contains(reference)) {
            throw Refused.naming(reference);
        }
    }

    /** A class, or an array as its descriptor has it. */
    private void checkClass(String name) throws Refused {
        if (name.startsWith("[")) {
            checkDescriptor(name);
        } else if (!isOwn(name) && !name.equals(OBJECT) && !name.equals(STRING) && !name.equals(HOST)) {
            throw Refused.naming(name);
        }
    }

    /** The classes of a descriptor, each of which stands between L and a semicolon. */
    private void checkDescriptor(String descriptor) throws Refused {
        int at = descriptor.indexOf('L');
        while (at >= 0) {
            int end = descriptor.indexOf(';', at);
            if (end < 0) {
                throw Refused.naming(descriptor);
            }
            checkClass(descriptor.substring(at + 1, end));
            at = descriptor.indexOf('L', end);
        }
    }

    /** All state is in fields that the host sets to 0 and null before the next run. */
    private void checkFields(String name, ClassFile file) throws Refused {
        for (ClassFile.Member field : file.fields()) {
            boolean isState = field.flags == PUBLIC_STATIC && (field.descriptor.equals("I") || field.descriptor.equals("[[I"));
            if (!isState || !name.equals(main)) {
                throw new Refused("has a field " + field.name + " that is no public static int or int[][] of the main class");
            }
        }
    }

    /** No method is native, is called by the virtual machine itself, or catches what the host throws to end a run. */
    private void checkMethods(ClassFile file) throws Refused {
        for (ClassFile.Member method : file.methods()) {
            checkDescriptor(method.descriptor);
            if ((method.flags & NATIVE) != 0 || method.name.equals("finalize")) {
                throw new Refused("has a method " + method.name + " that is native or a finalizer");
            }
            if (method.hasHandlers) {
                throw new Refused("has a method " + method.name + " that catches what is thrown");
            }
        }
    }
}
