package nestedvm;

import java.nio.BufferUnderflowException;
import java.nio.ByteBuffer;
import java.util.ArrayList;
import java.util.List;

/** A class file (section 4.1 of the JVM Specification), as far as a host looks at it: its constant pool, its fields and its methods. */
final class ClassFile {
    /** The bytes of a class's flags, name and superclass. */
    private static final int OWN_BYTES = 6;

    /** The bytes of a method's limits, which stand before the length of its code. */
    private static final int LIMITS_BYTES = 4;

    /** A field or a method. */
    static final class Member {
        final int flags;
        final String name;
        final String descriptor;

        /** The code, null where there is none. */
        byte[] code;

        /** Whether there are handlers of what is thrown. */
        boolean hasHandlers;

        Member(int flags, String name, String descriptor) {
            this.flags = flags;
            this.name = name;
            this.descriptor = descriptor;
        }
    }

    private final ConstantPool pool;
    private final List<Member> fields;
    private final List<Member> methods;

    /**
     * Reads a class file.
     *
     * @throws ClassFormatError where it is none
     */
    ClassFile(byte[] bytes) {
        try {
            pool = new ConstantPool(bytes);
            ByteBuffer file = ByteBuffer.wrap(bytes);
            file.position(pool.end() + OWN_BYTES);
            skip(file, 2 * (file.getShort() & 0xFFFF));
            fields = readMembers(file);
            methods = readMembers(file);
        } catch (IndexOutOfBoundsException | BufferUnderflowException | IllegalArgumentException malformed) {
            throw new ClassFormatError("an end before its end");
        }
    }

    ConstantPool pool() {
        return pool;
    }

    List<Member> fields() {
        return fields;
    }

    List<Member> methods() {
        return methods;
    }

    private static void skip(ByteBuffer file, int count) {
        file.position(file.position() + count);
    }

    private List<Member> readMembers(ByteBuffer file) {
        int count = file.getShort() & 0xFFFF;
        List<Member> members = new ArrayList<>();
        for (int i = 0; i < count; i++) {
            members.add(readMember(file));
        }
        return members;
    }

    private Member readMember(ByteBuffer file) {
        int flags = file.getShort();
        String name = pool.text(file.getShort() & 0xFFFF);
        Member member = new Member(flags, name, pool.text(file.getShort() & 0xFFFF));
        int attributes = file.getShort() & 0xFFFF;
        for (int i = 0; i < attributes; i++) {
            boolean isCode = pool.text(file.getShort() & 0xFFFF).equals("Code");
            int next = Math.addExact(file.getInt(), file.position());
            if (isCode) {
                readCode(file, member);
            }
            file.position(next);
        }
        return member;
    }

    private static void readCode(ByteBuffer file, Member member) {
        skip(file, LIMITS_BYTES);
        int length = file.getInt();
        if (length < 0 || length > file.remaining()) {
            throw new BufferUnderflowException();
        }
        member.code = new byte[length];
        file.get(member.code);
        member.hasHandlers = file.getShort() != 0;
    }
}
