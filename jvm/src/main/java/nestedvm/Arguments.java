package nestedvm;

import java.nio.ByteBuffer;
import java.nio.ByteOrder;
import java.util.ArrayList;
import java.util.List;

/** The arguments of a guest, whose argument block has at most 4,096 bytes. */
final class Arguments {
    /** The most bytes of the argument block, and the bytes of the room for it. */
    static final int LONGEST_BLOCK = 4096;

    private static final int WORD_BYTES = 4;

    private final List<byte[]> texts = new ArrayList<>();
    private int blockBytes = WORD_BYTES;

    private Arguments() {
    }

    /** Argument 0 and the others, or stops where the block would be too long. */
    static Arguments of(String name, List<String> others) {
        Arguments arguments = new Arguments();
        arguments.add(name);
        for (String argument : others) {
            arguments.add(argument);
        }
        return arguments;
    }

    private void add(String argument) {
        byte[] text = Names.bytesOf(argument);
        long needed = (long) blockBytes + WORD_BYTES + text.length + 1;
        if (needed > LONGEST_BLOCK) {
            throw new Stopped(Answer.argumentsTooLong(needed));
        }
        texts.add(text);
        blockBytes = (int) needed;
    }

    int count() {
        return texts.size();
    }

    /** The argument block for an address: the addresses of the texts, 0, and the texts, each with a zero behind it. */
    byte[] block(int address, ByteOrder order) {
        ByteBuffer block = ByteBuffer.allocate(blockBytes).order(order);
        int at = address + WORD_BYTES * (count() + 1);
        for (byte[] text : texts) {
            block.putInt(at);
            at += text.length + 1;
        }
        block.putInt(0);
        for (byte[] text : texts) {
            block.put(text).put((byte) 0);
        }
        return block.array();
    }
}
