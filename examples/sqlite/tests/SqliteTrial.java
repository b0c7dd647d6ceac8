import java.io.BufferedReader;
import java.io.IOException;
import java.io.InputStreamReader;
import java.lang.management.ManagementFactory;
import java.nio.charset.StandardCharsets;
import java.nio.file.Files;
import java.nio.file.Path;
import java.nio.file.Paths;
import java.sql.BatchUpdateException;
import java.sql.Connection;
import java.sql.DriverManager;
import java.sql.PreparedStatement;
import java.sql.ResultSet;
import java.sql.ResultSetMetaData;
import java.sql.SQLException;
import java.sql.SQLFeatureNotSupportedException;
import java.sql.Types;
import java.util.ArrayList;
import java.util.Arrays;
import java.util.List;
import sqlite.Database;
import sqlite.SqliteException;
import sqlite.Statement;

/**
 * Tries the library: `SqliteTrial rows FILE` reads SQL from input and prints its rows as the shell does, `SqliteTrial checks FOLDER` checks
 * values, files and the driver, and `SqliteTrial times COUNT` prints milliseconds.
 */
public final class SqliteTrial {
    private SqliteTrial() {
    }

    public static void main(String[] words) throws Exception {
        switch (words[0]) {
            case "rows":
                rows(Paths.get(words[1]));
                break;
            case "checks":
                values();
                refusals();
                file(Paths.get(words[1]).resolve("kept.db"));
                driver(Paths.get(words[1]).resolve("driver.db"));
                break;
            default:
                times(Integer.parseInt(words[1]));
        }
    }

    private static void check(boolean holds, String what) {
        if (!holds) {
            throw new IllegalStateException(what);
        }
    }

    private static void rows(Path file) throws IOException {
        BufferedReader input = new BufferedReader(new InputStreamReader(System.in, StandardCharsets.UTF_8));
        StringBuilder output = new StringBuilder();
        try (Database database = Database.inFile(file)) {
            for (String line = input.readLine(); line != null; line = input.readLine()) {
                database.each(line, (names, values) -> {
                    String separator = "";
                    for (String value : values) {
                        output.append(separator).append(value == null ? "" : value);
                        separator = "|";
                    }
                    output.append('\n');
                });
            }
        }
        System.out.write(output.toString().getBytes(StandardCharsets.UTF_8));
        System.out.flush();
    }

    private static void values() {
        byte[] blob = new byte[70_000];
        for (int i = 0; i < blob.length; i++) {
            blob[i] = (byte) (i * 31);
        }
        List<Object> given = Arrays.asList(null, 0L, -1L, Long.MIN_VALUE, Long.MAX_VALUE, 0.1, -1e300, Double.MIN_VALUE, "", "naïve, 日本, \ud83d\ude00", blob);
        try (Database database = Database.inMemory()) {
            database.execute("CREATE TABLE v (n INTEGER PRIMARY KEY, value)");
            try (Statement insert = database.prepare("INSERT INTO v (value) VALUES (:value)")) {
                for (Object value : given) {
                    check(insert.bind(insert.parameter(":value"), value).run() == 1, "a row is inserted");
                }
            }
            check(database.lastRow() == given.size(), "the last row");
            List<Object> found = new ArrayList<>();
            try (Statement select = database.prepare("SELECT value FROM v ORDER BY n")) {
                while (select.next()) {
                    found.add(select.get(0));
                }
            }
            check(Arrays.deepEquals(given.toArray(), found.toArray()), "values: " + found);
            database.execute("BEGIN; DELETE FROM v");
            check(database.isInTransaction(), "a transaction");
            database.execute("ROLLBACK");
            try (Statement count = database.prepare("SELECT count(*) FROM v")) {
                check(count.next() && count.getLong(0) == given.size(), "rolled back");
            }
        }
        System.out.println("values: as they were given");
    }

    private static void refusals() {
        try (Database database = Database.inMemory()) {
            database.execute("CREATE TABLE t (a PRIMARY KEY); INSERT INTO t VALUES (1)");
            refused(database, "INSERT INTO t VALUES (1)", 1555, "UNIQUE constraint failed: t.a");
            refused(database, "SELECT 1 FROM", 1, "incomplete input");
            refusedToPrepare(database, " -- nothing", "there is no statement in this SQL");
            refusedToPrepare(database, "CREATE TABLE u (a); INSERT INTO u VALUES (1)", "there is more than one statement in this SQL");
            database.prepare("SELECT 1; -- and no more\n").close();
            try {
                database.each("SELECT 1 UNION SELECT 2", (names, row) -> {
                    throw new IllegalArgumentException("enough");
                });
                check(false, "a row function that throws");
            } catch (RuntimeException thrown) {
                check(String.valueOf(thrown.getMessage()).contains("enough") || String.valueOf(thrown.getCause()).contains("enough"), "what it throws: " + thrown);
            }
            database.execute("INSERT INTO t VALUES (2)");
        }
        System.out.println("refusals: with SQLite's numbers and words");
    }

    private static void refused(Database database, String sql, int code, String message) {
        try {
            database.execute(sql);
            check(false, sql + " is not refused");
        } catch (SqliteException refusal) {
            check(refusal.code() == code && refusal.getMessage().equals(message), refusal.code() + " " + refusal.getMessage());
        }
    }

    private static void refusedToPrepare(Database database, String sql, String message) {
        try {
            database.prepare(sql);
            check(false, sql + " is prepared");
        } catch (IllegalArgumentException refusal) {
            check(refusal.getMessage().equals(message), refusal.getMessage());
        }
    }

    private static void file(Path path) throws IOException {
        Files.deleteIfExists(path);
        try (Database database = Database.inFile(path)) {
            database.execute("CREATE TABLE t (a); INSERT INTO t VALUES ('kept')");
        }
        check(Files.size(path) > 0, "the file is there");
        try (Database database = Database.inFile(path); Statement select = database.prepare("SELECT a FROM t")) {
            check(select.next() && select.getText(0).equals("kept"), "what the file has");
        }
        System.out.println("a file: kept");
    }

    private static void driver(Path path) throws SQLException, IOException {
        Files.deleteIfExists(path);
        try (Connection connection = DriverManager.getConnection("jdbc:nested-sqlite:" + path)) {
            try (java.sql.Statement statement = connection.createStatement()) {
                statement.executeUpdate("CREATE TABLE stars (name TEXT, magnitude REAL, planets INTEGER)");
            }
            connection.setAutoCommit(false);
            try (PreparedStatement insert = connection.prepareStatement("INSERT INTO stars VALUES (?, ?, ?)")) {
                insert.setString(1, "Vega");
                insert.setDouble(2, 0.03);
                insert.setNull(3, Types.INTEGER);
                insert.addBatch();
                insert.setString(1, "Sun");
                insert.setDouble(2, -26.7);
                insert.setInt(3, 8);
                insert.addBatch();
                check(Arrays.equals(insert.executeBatch(), new int[] {1, 1}), "a batch");
            }
            connection.commit();
            try (java.sql.Statement statement = connection.createStatement()) {
                check(statement.executeUpdate("DELETE FROM stars") == 2, "deleted rows");
            }
            connection.rollback();
            driverRows(connection);
            driverRefusals(connection);
            check(connection.getMetaData().getDatabaseProductName().equals("SQLite"), "the product's name");
        }
        System.out.println("the driver: statements, parameters, rows, metadata, transactions");
    }

    private static void driverRows(Connection connection) throws SQLException {
        try (PreparedStatement select = connection.prepareStatement("SELECT name, magnitude, planets FROM stars WHERE magnitude < ? ORDER BY magnitude")) {
            select.setInt(1, 100);
            ResultSet rows = select.executeQuery();
            ResultSetMetaData columns = rows.getMetaData();
            check(columns.getColumnCount() == 3 && columns.getColumnName(2).equals("magnitude") && columns.getColumnType(2) == Types.DOUBLE, "columns");
            check(rows.next() && rows.getString("name").equals("Sun") && rows.getInt(3) == 8 && !rows.wasNull(), "the first row");
            check(rows.next() && rows.getDouble("magnitude") == 0.03 && rows.getInt("planets") == 0 && rows.wasNull(), "the second row");
            check(!rows.next() && !rows.next(), "the end");
        }
    }

    private static void driverRefusals(Connection connection) throws SQLException {
        try (java.sql.Statement statement = connection.createStatement()) {
            statement.executeQuery("SELECT missing FROM stars");
            check(false, "SQL that is wrong");
        } catch (SQLException refusal) {
            check(refusal.getMessage().equals("no such column: missing"), refusal.getMessage());
        }
        try (PreparedStatement insert = connection.prepareStatement("INSERT INTO stars (rowid) VALUES (?)")) {
            for (int number : new int[] {7, 8, 7, 9}) {
                insert.setInt(1, number);
                insert.addBatch();
            }
            insert.executeBatch();
            check(false, "a batch that is wrong");
        } catch (BatchUpdateException refusal) {
            check(refusal.getUpdateCounts().length == 2 && refusal.getSQLState().equals("23000"), "a batch that is wrong: " + refusal);
        }
        connection.rollback();
        try {
            connection.prepareCall("SELECT 1");
            check(false, "a call is not there");
        } catch (SQLFeatureNotSupportedException missing) {
            check(missing.getMessage().equals("Connection.prepareCall"), missing.getMessage());
        }
    }

    /** The processor's time of this thread, without that of the compilers, in nanoseconds. */
    private static long processorTime() {
        return ManagementFactory.getThreadMXBean().getCurrentThreadCpuTime();
    }

    private static void times(int count) {
        for (int turn = 1; turn <= 4; turn++) {
            try (Database database = Database.inMemory()) {
                long start = processorTime();
                database.execute("CREATE TABLE t (n INTEGER PRIMARY KEY, name TEXT, weight REAL); BEGIN");
                try (Statement insert = database.prepare("INSERT INTO t VALUES (?, ?, ?)")) {
                    for (int i = 1; i <= count; i++) {
                        insert.bind(1, (long) i).bind(2, "name " + i).bind(3, i / 8.0).run();
                    }
                }
                database.execute("COMMIT");
                long inserted = processorTime();
                double sum = 0;
                try (Statement select = database.prepare("SELECT n, name, weight FROM t ORDER BY n")) {
                    while (select.next()) {
                        sum += select.getLong(0) + select.getText(1).length() + select.getDouble(2);
                    }
                }
                System.out.printf("turn %d: %d inserts %d ms, scan %d ms, sum %.3f%n", turn, count, (inserted - start) / 1_000_000,
                    (processorTime() - inserted) / 1_000_000, sum);
            }
        }
    }
}
