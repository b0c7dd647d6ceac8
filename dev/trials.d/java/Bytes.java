/** Bytes as hexadecimal digits. */
final class Bytes {
    private Bytes() {
    }

    static byte[] ofHex(String digits) {
        byte[] made = new byte[digits.length() / 2];
        for (int i = 0; i < made.length; i++) {
            made[i] = (byte) Integer.parseInt(digits.substring(2 * i, 2 * i + 2), 16);
        }
        return made;
    }

    static String toHex(byte[] bytes) {
        StringBuilder made = new StringBuilder();
        for (byte b : bytes) {
            made.append(Character.forDigit(b >> 4 & 15, 16)).append(Character.forDigit(b & 15, 16));
        }
        return made.toString();
    }
}
