package nestedvm;

/** How addresses are written. */
final class Addresses {
    private Addresses() {
    }

    /** Eight digits in hexadecimal, as {@code 0040001C}. */
    static String text(int address) {
        String digits = Integer.toHexString(address).toUpperCase(java.util.Locale.ROOT);
        return "00000000".substring(digits.length()) + digits;
    }
}
