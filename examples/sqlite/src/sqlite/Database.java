package sqlite;

import java.nio.charset.StandardCharsets;
import java.nio.file.Path;
import java.util.ArrayList;
import java.util.LinkedHashSet;
import java.util.List;
import java.util.Set;
import nestedvm.Call;
import nestedvm.FolderAccess;
import nestedvm.Library;
import nestedvm.Memory;
import nestedvm.Pointer;
import nestedvm.Program;

/**
 * A database of SQLite, which runs in this process as a guest of its own: nothing of it is native code.
 *
 * <pre>{@code
 * try (Database database = Database.inMemory()) {
 *     database.execute("CREATE TABLE stars (name TEXT, magnitude REAL)");
 *     try (Statement insert = database.prepare("INSERT INTO stars VALUES (?, ?)")) {
 *         insert.bind(1, "Vega").bind(2, 0.03).run();
 *     }
 * }
 * }</pre>
 *
 * <p>Several threads may use it; its methods take turns. What SQLite refuses is a {@link SqliteException}.
 */
public final class Database implements AutoCloseable {
    static final int OK = 0;
    static final int ROW = 100;
    static final int DONE = 101;

    private static final int READ_WRITE_CREATE = 6;
    private static final String MAIN = "sqlite/Sqlite";
    private static final Program PROGRAM = Program.of(Database.class.getClassLoader(), MAIN);

    private final Library library;
    private final Functions functions;
    private final Set<Statement> statements = new LinkedHashSet<>();
    private int handle;

    private Database(Call call, String name) {
        library = call.library();
        functions = library.as(Functions.class);
        int[] made = new int[1];
        int result = functions.open(name, made, READ_WRITE_CREATE, null);
        handle = made[0];
        if (result != OK) {
            SqliteException failure = failure(result);
            close();
            throw failure;
        }
    }

    /**
     * An empty database in memory.
     *
     * @return the database, which is gone when it is closed
     */
    public static Database inMemory() {
        return new Database(PROGRAM.call(), ":memory:");
    }

    /**
     * A database in a file, which is made if there is none. SQLite keeps its journal beside it. It locks nothing, so one process may have it open
     * at a time.
     *
     * @param file the file
     * @return the database
     * @throws SqliteException if it cannot be opened
     */
    public static Database inFile(Path file) {
        Path whole = file.toAbsolutePath();
        return new Database(PROGRAM.call().folder(whole.getParent(), FolderAccess.READ_AND_WRITE), whole.getFileName().toString());
    }

    /**
     * The version of SQLite.
     *
     * @return as {@code 3.40.1}
     */
    public String version() {
        return functions.version();
    }

    /**
     * Runs any number of statements, and leaves what rows they give.
     *
     * @param sql the statements, with a semicolon between two
     * @return this
     * @throws SqliteException if one of them is refused; those before it stand
     */
    public Database execute(String sql) {
        check(functions.execute(open(), sql, null, null, null));
        return this;
    }

    /**
     * Runs any number of statements, and hands each row that they give to a function, by SQLite's own callback.
     *
     * @param sql the statements
     * @param row takes each row. What it throws ends the call, with it as cause
     * @throws SqliteException if one of them is refused
     */
    public void each(String sql, Row row) {
        check(functions.execute(open(), sql, (context, columns, values, names) -> {
            row.take(texts(names, columns), texts(values, columns));
            return OK;
        }, null, null));
    }

    private static List<String> texts(Pointer array, int count) {
        List<String> texts = new ArrayList<>(count);
        for (int i = 0; i < count; i++) {
            Pointer text = array.getPointer(Integer.BYTES * i);
            texts.add(text == null ? null : text.getText(0));
        }
        return texts;
    }

    /**
     * Prepares a statement.
     *
     * @param sql one statement, with parameters such as {@code ?}, {@code ?2} or {@code :name}
     * @return the statement, which is closed with the database at the latest
     * @throws SqliteException if it is refused
     * @throws IllegalArgumentException if there is no statement, or more than one
     */
    public synchronized Statement prepare(String sql) {
        byte[] text = (sql + "\0").getBytes(StandardCharsets.UTF_8);
        try (Memory copy = library.allocateMemory(text.length)) {
            copy.write(0, text);
            int[] made = new int[1];
            int[] rest = new int[1];
            check(functions.prepare(open(), copy, text.length, made, rest));
            if (made[0] == 0) {
                throw new IllegalArgumentException("there is no statement in this SQL");
            }
            int start = rest[0] - copy.address();
            if (hasStatement(copy.slice(start), text.length - start)) {
                functions.finish(made[0]);
                throw new IllegalArgumentException("there is more than one statement in this SQL");
            }
            Statement statement = new Statement(this, made[0]);
            statements.add(statement);
            return statement;
        }
    }

    /** Whether a text has more than comments. */
    private boolean hasStatement(Pointer text, int bytes) {
        int[] made = new int[1];
        int result = functions.prepare(open(), text, bytes, made, null);
        functions.finish(made[0]);
        return result != OK || made[0] != 0;
    }

    /**
     * How many rows the last INSERT, UPDATE or DELETE changed.
     *
     * @return the rows
     */
    public int changes() {
        return functions.changes(open());
    }

    /**
     * The number of the row that was inserted last.
     *
     * @return the rowid, 0 where none was
     */
    public long lastRow() {
        return functions.lastRow(open());
    }

    /**
     * Whether a transaction is open, which BEGIN has begun and neither COMMIT nor ROLLBACK has ended.
     *
     * @return whether there is one
     */
    public boolean isInTransaction() {
        return !functions.isAutoCommit(open());
    }

    Functions functions() {
        open();
        return functions;
    }

    private int open() {
        if (handle == 0) {
            throw new IllegalStateException("the database is closed");
        }
        return handle;
    }

    /** Whether it can be used no longer. */
    synchronized boolean isClosed() {
        return handle == 0;
    }

    synchronized void forget(Statement statement) {
        statements.remove(statement);
    }

    void check(int result) {
        if (result != OK) {
            throw failure(result);
        }
    }

    SqliteException failure(int result) {
        return handle == 0
            ? new SqliteException(result, "SQLite gives " + result)
            : new SqliteException(functions.code(handle), functions.message(handle));
    }

    /** Closes the database, with its statements, and the guest. A transaction that is open is rolled back. To close again does nothing. */
    @Override
    public synchronized void close() {
        for (Statement statement : new ArrayList<>(statements)) {
            statement.close();
        }
        if (handle != 0) {
            functions.close(handle);
            handle = 0;
        }
        library.close();
    }
}
