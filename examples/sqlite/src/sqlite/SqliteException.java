package sqlite;

/** What SQLite refuses. */
public final class SqliteException extends RuntimeException {
    private static final long serialVersionUID = 1;

    private final int code;

    SqliteException(int code, String message) {
        super(message);
        this.code = code;
    }

    /**
     * SQLite's own number for it.
     *
     * @return an extended result code, as 1555 for a primary key that is there already; its low eight bits are the result code
     */
    public int code() {
        return code;
    }
}
