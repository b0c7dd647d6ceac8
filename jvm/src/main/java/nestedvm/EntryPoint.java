package nestedvm;

import java.nio.ByteBuffer;

/** Where a translated program begins: the address that the method {@code run} of its main class puts into the field {@code pc}, last of all. */
final class EntryPoint {
    private static final int SIPUSH = 0x11;
    private static final int LDC_W = 0x13;
    private static final int RETURN = 0xB1;
    private static final int PUTSTATIC = 0xB3;
    private static final int INVOKESTATIC = 0xB8;

    /** The bytes of the last four instructions, the last one of which has no operand. */
    private static final int TAIL_BYTES = 10;

    private final ConstantPool pool;
    private final ByteBuffer tail;

    private EntryPoint(ConstantPool pool, byte[] code) {
        this.pool = pool;
        this.tail = ByteBuffer.wrap(code, code.length - TAIL_BYTES, TAIL_BYTES).slice();
    }

    /** That of a main class, or null where its method is not that of a translated program. */
    static Integer of(byte[] mainClass) {
        try {
            ClassFile file = new ClassFile(mainClass);
            for (ClassFile.Member method : file.methods()) {
                if (method.name.equals("run") && method.descriptor.equals("()V") && method.code != null && method.code.length >= TAIL_BYTES) {
                    return new EntryPoint(file.pool(), method.code).read();
                }
            }
            return null;
        } catch (ClassFormatError | IndexOutOfBoundsException other) {
            return null;
        }
    }

    private Integer read() {
        boolean isTail = opcode(3) == PUTSTATIC && member(4).equals("pc:I") && opcode(6) == INVOKESTATIC && member(7).equals("choose:()V")
            && opcode(9) == RETURN;
        if (isTail && opcode(0) == SIPUSH) {
            return (int) tail.getShort(1);
        }
        return isTail && opcode(0) == LDC_W ? (Integer) pool.number(tail.getShort(1) & 0xFFFF) : null;
    }

    private int opcode(int place) {
        return tail.get(place) & 0xFF;
    }

    private String member(int place) {
        int nameAndType = pool.second(tail.getShort(place) & 0xFFFF);
        return pool.text(pool.first(nameAndType)) + ":" + pool.text(pool.second(nameAndType));
    }
}
