package nestedvm;

/** Where the class files of a program are found, and the names of its functions. */
interface ClassSource {
    /** The file of a class of this name, or null where there is none. */
    byte[] find(String className);

    /** The file NAME.symbols for the main class NAME, or null where there is none. */
    default byte[] findSymbols(String className) {
        return null;
    }
}
