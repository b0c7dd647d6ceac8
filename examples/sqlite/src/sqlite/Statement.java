package sqlite;

import java.nio.charset.StandardCharsets;
import nestedvm.Pointer;

/**
 * A prepared statement, which is a cursor over its rows as well: {@link #next} goes to the next one, and the methods {@code get..} read its columns.
 * Parameters count from 1 and columns from 0, as in SQLite.
 */
public final class Statement implements AutoCloseable {
    /** SQLite takes a copy of what it is given. */
    private static final int TRANSIENT = -1;

    private static final int INTEGER = 1;
    private static final int FLOAT = 2;
    private static final int TEXT = 3;
    private static final int BLOB = 4;
    private static final int NULL = 5;

    private final Database database;
    private int handle;

    /** Whether a step has been made since it was reset. */
    private boolean isStepped;

    Statement(Database database, int handle) {
        this.database = database;
        this.handle = handle;
    }

    private Functions functions() {
        if (handle == 0) {
            throw new IllegalStateException("the statement is closed");
        }
        return database.functions();
    }

    /** The functions, when the statement is before its first row, where SQLite takes values of parameters. */
    private Functions functionsAtStart() {
        if (isStepped) {
            reset();
        }
        return functions();
    }

    /**
     * The number of parameters.
     *
     * @return the greatest index
     */
    public int parameters() {
        return functions().parameters(handle);
    }

    /**
     * The index of a parameter by its name.
     *
     * @param name the name with its sign, as {@code :name}
     * @return the index
     * @throws IllegalArgumentException if there is none of that name
     */
    public int parameter(String name) {
        int index = functions().parameter(handle, name);
        if (index == 0) {
            throw new IllegalArgumentException("there is no parameter " + name);
        }
        return index;
    }

    /**
     * Gives a parameter a value. The statement begins anew.
     *
     * @param index its index, from 1 on
     * @param value the value: null, a {@code Number}, a {@code Boolean}, a {@code byte[]}, or what has a text
     * @return this
     * @throws SqliteException if there is no such parameter
     */
    public Statement bind(int index, Object value) {
        if (value instanceof Double || value instanceof Float) {
            return bind(index, ((Number) value).doubleValue());
        }
        if (value instanceof Long || value instanceof Integer || value instanceof Short || value instanceof Byte) {
            return bind(index, ((Number) value).longValue());
        }
        if (value instanceof Boolean) {
            return bind(index, (Boolean) value ? 1L : 0L);
        }
        Functions functions = functionsAtStart();
        if (value == null) {
            database.check(functions.bindNull(handle, index));
        } else if (value instanceof byte[]) {
            byte[] bytes = (byte[]) value;
            database.check(functions.bindBlob(handle, index, bytes, bytes.length, TRANSIENT));
        } else {
            byte[] text = value.toString().getBytes(StandardCharsets.UTF_8);
            database.check(functions.bindText(handle, index, text, text.length, TRANSIENT));
        }
        return this;
    }

    /**
     * Gives a parameter an integer. The statement begins anew.
     *
     * @param index its index, from 1 on
     * @param value the value
     * @return this
     * @throws SqliteException if there is no such parameter
     */
    public Statement bind(int index, long value) {
        database.check(functionsAtStart().bind(handle, index, value));
        return this;
    }

    /**
     * Gives a parameter a real number. The statement begins anew.
     *
     * @param index its index, from 1 on
     * @param value the value
     * @return this
     * @throws SqliteException if there is no such parameter
     */
    public Statement bind(int index, double value) {
        database.check(functionsAtStart().bind(handle, index, value));
        return this;
    }

    /**
     * Makes all parameters NULL. The statement begins anew.
     *
     * @return this
     */
    public Statement clear() {
        database.check(functionsAtStart().clear(handle));
        return this;
    }

    /**
     * Goes to the next row.
     *
     * @return whether there is one. After the last one the statement begins anew
     * @throws SqliteException if the statement fails
     */
    public boolean next() {
        isStepped = true;
        int result = functions().step(handle);
        if (result == Database.ROW) {
            return true;
        }
        SqliteException failure = result == Database.DONE ? null : database.failure(result);
        reset();
        if (failure != null) {
            throw failure;
        }
        return false;
    }

    /**
     * Runs the statement to its end, and leaves what rows it gives.
     *
     * @return how many rows it changed, where it is an INSERT, an UPDATE or a DELETE
     * @throws SqliteException if the statement fails
     */
    public int run() {
        while (next()) {
            continue;
        }
        return database.changes();
    }

    /**
     * Goes back before the first row. Parameters keep their values.
     *
     * @return this
     */
    public Statement reset() {
        functions().reset(handle);
        isStepped = false;
        return this;
    }

    /**
     * The number of columns of its rows.
     *
     * @return the columns, 0 where it gives no rows
     */
    public int columns() {
        return functions().columns(handle);
    }

    /**
     * The name of a column.
     *
     * @param column its number, from 0 on
     * @return the name
     */
    public String columnName(int column) {
        return functions().columnName(handle, column);
    }

    /**
     * The type with which the table declares a column.
     *
     * @param column its number, from 0 on
     * @return the type as it was written, or null for an expression
     */
    public String columnDeclaration(int column) {
        return functions().columnDeclaration(handle, column);
    }

    /**
     * A column of the row.
     *
     * @param column its number, from 0 on
     * @return a {@code Long}, a {@code Double}, a {@code String}, a {@code byte[]}, or null
     */
    public Object get(int column) {
        switch (functions().columnType(handle, column)) {
            case INTEGER:
                return getLong(column);
            case FLOAT:
                return getDouble(column);
            case TEXT:
                return getText(column);
            case BLOB:
                return getBytes(column);
            default:
                return null;
        }
    }

    /**
     * Whether a column of the row is NULL.
     *
     * @param column its number, from 0 on
     * @return whether it is
     */
    public boolean isNull(int column) {
        return functions().columnType(handle, column) == NULL;
    }

    /**
     * A column of the row as an integer.
     *
     * @param column its number, from 0 on
     * @return the number, 0 for NULL and for a text that is none
     */
    public long getLong(int column) {
        return functions().columnLong(handle, column);
    }

    /**
     * A column of the row as a real number.
     *
     * @param column its number, from 0 on
     * @return the number, 0 for NULL and for a text that is none
     */
    public double getDouble(int column) {
        return functions().columnDouble(handle, column);
    }

    /**
     * A column of the row as a text.
     *
     * @param column its number, from 0 on
     * @return the text, or null for NULL
     */
    public String getText(int column) {
        byte[] bytes = bytes(functions().columnText(handle, column), column);
        return bytes == null ? null : new String(bytes, StandardCharsets.UTF_8);
    }

    /**
     * A column of the row as bytes.
     *
     * @param column its number, from 0 on
     * @return the bytes, or null for NULL and for none
     */
    public byte[] getBytes(int column) {
        Functions functions = functions();
        byte[] bytes = bytes(functions.columnBlob(handle, column), column);
        return bytes == null && functions.columnType(handle, column) == BLOB ? new byte[0] : bytes;
    }

    private byte[] bytes(Pointer place, int column) {
        return place == null ? null : place.read(0, functions().columnBytes(handle, column));
    }

    /** Closes the statement. To close again does nothing. */
    @Override
    public void close() {
        synchronized (database) {
            if (handle != 0 && !database.isClosed()) {
                functions().finish(handle);
            }
            handle = 0;
            database.forget(this);
        }
    }
}
