package nestedvm;

/** A side of the console. Their order is that of the first three descriptors. */
enum Side {
    INPUT,
    OUTPUT,
    ERROR_OUTPUT
}
