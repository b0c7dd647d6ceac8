package nestedvm;

/**
 * A function of Java that C calls, with words for arguments. {@link Library#callback(Callback)} gives it an address. Where an interface says the
 * types of its arguments, {@link Library#callback(Callback)} is easier to use.
 */
@FunctionalInterface
public interface Callback {
    /**
     * Answers a call of the program.
     *
     * @param arguments its arguments, which may be read while this runs
     * @return the value: in the low 32 bits, or a whole {@code long long} or the bits of a double where it was registered by
     *     {@link Library#wideCallback}
     * @throws Exception where it fails. This ends the call of C by which Java came here, with {@link Ending#CALLBACK_FAILED}
     */
    long call(CallbackArguments arguments) throws Exception;
}
