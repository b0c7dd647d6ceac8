/**
 * Runs translated programs on a Java virtual machine.
 *
 * <p>{@link nestedvm.Program} is a program that Java calls: a {@link nestedvm.Call} has the arguments, streams and files, a
 * {@link nestedvm.Result} what came of it. {@link nestedvm.Library} has the functions of a program that stays: by their addresses, or by an
 * interface ({@link nestedvm.Library#as}), with {@link nestedvm.Pointer}, {@link nestedvm.Structure} and {@link nestedvm.JavaFunction} for what
 * C has. {@link nestedvm.Tool} and {@link nestedvm.Run} run a program as a process. {@link nestedvm.Host} is what the classes of programs call.
 *
 * <p>docs/JAVA.md shows how to use them, and docs/HOST.md says what stands between a host and the classes.
 */
package nestedvm;
