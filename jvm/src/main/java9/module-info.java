/** Runs translated programs on a Java virtual machine. */
module nestedvm {
    exports nestedvm;
}
