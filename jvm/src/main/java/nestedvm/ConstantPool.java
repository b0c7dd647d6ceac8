package nestedvm;

import java.io.ByteArrayInputStream;
import java.io.DataInputStream;
import java.io.IOException;
import java.nio.ByteBuffer;

/** The constant pool of a class file (section 4.4 of the JVM Specification), as far as it names classes and members. */
final class ConstantPool {
    static final int UTF8 = 1;
    static final int INTEGER = 3;
    static final int FLOAT = 4;
    static final int LONG = 5;
    static final int DOUBLE = 6;
    static final int CLASS = 7;
    static final int STRING = 8;
    static final int FIELD = 9;
    static final int METHOD = 10;
    static final int INTERFACE_METHOD = 11;
    static final int NAME_AND_TYPE = 12;

    private final byte[] bytes;
    private final ByteBuffer file;

    /** Where each constant begins, by its index; 0 where there is none. */
    private final int[] places;
    private final int end;

    /**
     * The pool of a class file, behind its magic number and version.
     *
     * @throws ClassFormatError where there is a constant of another kind, as for method handles
     * @throws java.nio.BufferUnderflowException where the file ends within the pool
     */
    ConstantPool(byte[] bytes) {
        this.bytes = bytes;
        file = ByteBuffer.wrap(bytes);
        file.position(8);
        places = new int[file.getShort() & 0xFFFF];
        for (int index = 1; index < places.length; index++) {
            places[index] = file.position();
            int tag = file.get();
            file.position(file.position() + bytesOf(tag));
            if (tag == LONG || tag == DOUBLE) {
                index++;
            }
        }
        end = file.position();
    }

    /** How many bytes a constant has behind its tag. */
    private int bytesOf(int tag) {
        switch (tag) {
            case UTF8:
                return 2 + (file.getShort(file.position()) & 0xFFFF);
            case INTEGER:
            case FLOAT:
            case FIELD:
            case METHOD:
            case INTERFACE_METHOD:
            case NAME_AND_TYPE:
                return 4;
            case LONG:
            case DOUBLE:
                return 8;
            case CLASS:
            case STRING:
                return 2;
            default:
                throw new ClassFormatError("a constant of kind " + tag);
        }
    }

    /** How many indexes there are; the first one is 1. */
    int size() {
        return places.length;
    }

    /** The place behind the pool. */
    int end() {
        return end;
    }

    /** The kind of a constant, or 0 where there is none. */
    int tag(int index) {
        return places[index] == 0 ? 0 : bytes[places[index]];
    }

    /** Whether a constant refers to a field or a method. */
    boolean isMember(int index) {
        int tag = tag(index);
        return tag == FIELD || tag == METHOD || tag == INTERFACE_METHOD;
    }

    /** The first index that a constant has. */
    int first(int index) {
        return file.getShort(places[index] + 1) & 0xFFFF;
    }

    /** The second index that a constant has. */
    int second(int index) {
        return file.getShort(places[index] + 3) & 0xFFFF;
    }

    /** The number of a constant that is an int. */
    int number(int index) {
        if (tag(index) != INTEGER) {
            throw new ClassFormatError("constant " + index + " is no int");
        }
        return file.getInt(places[index] + 1);
    }

    /** The text of a constant that is one. */
    String text(int index) {
        if (tag(index) != UTF8) {
            throw new ClassFormatError("constant " + index + " is no text");
        }
        int place = places[index] + 1;
        try {
            return new DataInputStream(new ByteArrayInputStream(bytes, place, bytes.length - place)).readUTF();
        } catch (IOException malformed) {
            throw new ClassFormatError("constant " + index + " is no text: " + malformed);
        }
    }
}
