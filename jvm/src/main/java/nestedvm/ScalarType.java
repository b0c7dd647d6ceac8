package nestedvm;

/** The primitive types of Java, as C has them in registers and in memory. A boolean is true where it is not 0, and one byte in memory. */
enum ScalarType implements ValueType {
    /** A {@code signed char}. */
    BYTE(byte.class, Byte.class, Byte.BYTES) {
        @Override
        public Object value(Library library, long bits) {
            return (byte) bits;
        }

        @Override
        public long bits(Library library, Object value) {
            return (Byte) value;
        }
    },

    /** A {@code _Bool}, or an int that is one. */
    BOOLEAN(boolean.class, Boolean.class, Byte.BYTES) {
        @Override
        public Object value(Library library, long bits) {
            return (int) bits != 0;
        }

        @Override
        public long bits(Library library, Object value) {
            return (Boolean) value ? 1 : 0;
        }
    },

    /** A {@code short}. */
    SHORT(short.class, Short.class, Short.BYTES) {
        @Override
        public Object value(Library library, long bits) {
            return (short) bits;
        }

        @Override
        public long bits(Library library, Object value) {
            return (Short) value;
        }
    },

    /** An {@code unsigned short}. */
    CHAR(char.class, Character.class, Character.BYTES) {
        @Override
        public Object value(Library library, long bits) {
            return (char) bits;
        }

        @Override
        public long bits(Library library, Object value) {
            return (Character) value;
        }
    },

    /** An {@code int} or {@code long}, with a sign or without. */
    INT(int.class, Integer.class, Integer.BYTES) {
        @Override
        public Object value(Library library, long bits) {
            return (int) bits;
        }

        @Override
        public long bits(Library library, Object value) {
            return (Integer) value;
        }
    },

    /** A {@code long long}, with a sign or without. */
    LONG(long.class, Long.class, Long.BYTES) {
        @Override
        public Object value(Library library, long bits) {
            return bits;
        }

        @Override
        public long bits(Library library, Object value) {
            return (Long) value;
        }
    },

    /** A {@code float}, whose bits are a word. */
    FLOAT(float.class, Float.class, Float.BYTES) {
        @Override
        public Object value(Library library, long bits) {
            return Float.intBitsToFloat((int) bits);
        }

        @Override
        public long bits(Library library, Object value) {
            return Float.floatToRawIntBits((Float) value);
        }
    },

    /** A {@code double}, whose bits are those of a {@code long long}. */
    DOUBLE(double.class, Double.class, Double.BYTES) {
        @Override
        public Object value(Library library, long bits) {
            return Double.longBitsToDouble(bits);
        }

        @Override
        public long bits(Library library, Object value) {
            return Double.doubleToRawLongBits((Double) value);
        }
    };

    private final Class<?> type;
    private final Class<?> objects;
    private final int size;

    ScalarType(Class<?> type, Class<?> objects, int size) {
        this.type = type;
        this.objects = objects;
        this.size = size;
    }

    /** That of a primitive type, or null where there is none. */
    static ScalarType of(Class<?> type) {
        for (ScalarType each : values()) {
            if (each.type == type) {
                return each;
            }
        }
        return null;
    }

    /** Whether an object is a value of this type. */
    boolean isOf(Object value) {
        return objects.isInstance(value);
    }

    @Override
    public boolean isWide() {
        return size == Long.BYTES;
    }

    /** The bytes of a value in memory, of which its address there is a multiple. */
    int size() {
        return size;
    }

    /** The value at an offset behind a pointer. */
    Object read(Pointer pointer, int offset) {
        switch (size) {
            case Byte.BYTES:
                return value(null, pointer.getByte(offset));
            case Short.BYTES:
                return value(null, pointer.getShort(offset));
            case Integer.BYTES:
                return value(null, pointer.getInt(offset));
            default:
                return value(null, pointer.getLong(offset));
        }
    }

    /** Puts a value at an offset behind a pointer. */
    void write(Pointer pointer, int offset, Object value) {
        long bits = bits(null, value);
        switch (size) {
            case Byte.BYTES:
                pointer.setByte(offset, (byte) bits);
                break;
            case Short.BYTES:
                pointer.setShort(offset, (short) bits);
                break;
            case Integer.BYTES:
                pointer.setInt(offset, (int) bits);
                break;
            default:
                pointer.setLong(offset, bits);
        }
    }
}
