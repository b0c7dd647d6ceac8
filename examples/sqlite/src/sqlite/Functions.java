package sqlite;

import nestedvm.FunctionName;
import nestedvm.In;
import nestedvm.Pointer;

/** The functions of SQLite that {@link Database} calls, as sqlite3.h declares them. */
interface Functions {
    @FunctionName("sqlite3_libversion")
    String version();

    @FunctionName("sqlite3_open_v2")
    int open(String name, int[] database, int flags, Pointer system);

    @FunctionName("sqlite3_close_v2")
    int close(int database);

    @FunctionName("sqlite3_errmsg")
    String message(int database);

    @FunctionName("sqlite3_extended_errcode")
    int code(int database);

    @FunctionName("sqlite3_exec")
    int execute(int database, String sql, RowFunction row, Pointer context, Pointer message);

    @FunctionName("sqlite3_prepare_v2")
    int prepare(int database, Pointer sql, int bytes, int[] statement, int[] rest);

    @FunctionName("sqlite3_step")
    int step(int statement);

    @FunctionName("sqlite3_reset")
    int reset(int statement);

    @FunctionName("sqlite3_finalize")
    int finish(int statement);

    @FunctionName("sqlite3_bind_parameter_count")
    int parameters(int statement);

    @FunctionName("sqlite3_bind_parameter_index")
    int parameter(int statement, String name);

    @FunctionName("sqlite3_clear_bindings")
    int clear(int statement);

    @FunctionName("sqlite3_bind_null")
    int bindNull(int statement, int index);

    @FunctionName("sqlite3_bind_int64")
    int bind(int statement, int index, long value);

    @FunctionName("sqlite3_bind_double")
    int bind(int statement, int index, double value);

    @FunctionName("sqlite3_bind_text")
    int bindText(int statement, int index, @In byte[] text, int bytes, int destructor);

    @FunctionName("sqlite3_bind_blob")
    int bindBlob(int statement, int index, @In byte[] bytes, int count, int destructor);

    @FunctionName("sqlite3_column_count")
    int columns(int statement);

    @FunctionName("sqlite3_column_name")
    String columnName(int statement, int column);

    @FunctionName("sqlite3_column_decltype")
    String columnDeclaration(int statement, int column);

    @FunctionName("sqlite3_column_type")
    int columnType(int statement, int column);

    @FunctionName("sqlite3_column_int64")
    long columnLong(int statement, int column);

    @FunctionName("sqlite3_column_double")
    double columnDouble(int statement, int column);

    @FunctionName("sqlite3_column_text")
    Pointer columnText(int statement, int column);

    @FunctionName("sqlite3_column_blob")
    Pointer columnBlob(int statement, int column);

    @FunctionName("sqlite3_column_bytes")
    int columnBytes(int statement, int column);

    @FunctionName("sqlite3_changes")
    int changes(int database);

    @FunctionName("sqlite3_last_insert_rowid")
    long lastRow(int database);

    @FunctionName("sqlite3_get_autocommit")
    boolean isAutoCommit(int database);

    /** What {@code sqlite3_exec} calls for each row, with arrays of texts. 0 goes on. */
    interface RowFunction {
        int row(Pointer context, int columns, Pointer values, Pointer names);
    }
}
