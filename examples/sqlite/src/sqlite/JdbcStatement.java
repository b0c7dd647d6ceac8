package sqlite;

import java.math.BigDecimal;
import java.sql.BatchUpdateException;
import java.sql.Connection;
import java.sql.ResultSet;
import java.sql.ResultSetMetaData;
import java.sql.SQLException;
import java.sql.SQLWarning;
import java.util.ArrayList;
import java.util.Arrays;
import java.util.List;

/** The part of {@link java.sql.Statement}, and of {@link java.sql.PreparedStatement} where it is made with SQL, that is there. */
final class JdbcStatement {
    private static final int NO_COUNT = -1;

    private final JdbcConnection connection;

    /** The statement, null where none was prepared, and then the one that was run last. */
    private Statement statement;
    private final boolean isPrepared;
    private final List<Object[]> batch = new ArrayList<>();
    private Object[] values;
    private ResultSet rows;
    private int count = NO_COUNT;
    private boolean isClosed;

    JdbcStatement(JdbcConnection connection, Statement statement) {
        this.connection = connection;
        this.statement = statement;
        isPrepared = statement != null;
        values = isPrepared ? new Object[statement.parameters()] : null;
    }

    // ---- running

    public boolean execute() throws SQLException {
        if (isClosed) {
            throw new SQLException("the statement is closed");
        }
        connection.begin();
        rows = null;
        count = NO_COUNT;
        for (int i = 0; values != null && i < values.length; i++) {
            statement.bind(i + 1, values[i]);
        }
        statement.reset();
        if (statement.columns() == 0) {
            count = statement.run();
            return false;
        }
        rows = Partial.of(ResultSet.class, new JdbcRows(this, statement));
        return true;
    }

    public ResultSet executeQuery() throws SQLException {
        if (!execute()) {
            throw new SQLException("this gives no rows");
        }
        return rows;
    }

    public int executeUpdate() throws SQLException {
        if (execute()) {
            throw new SQLException("this gives rows");
        }
        return count;
    }

    public boolean execute(String sql) throws SQLException {
        if (isPrepared) {
            throw new SQLException("the statement has its SQL");
        }
        if (statement != null) {
            statement.close();
        }
        statement = connection.database().prepare(sql);
        return execute();
    }

    public ResultSet executeQuery(String sql) throws SQLException {
        if (!execute(sql)) {
            throw new SQLException("this gives no rows");
        }
        return rows;
    }

    public int executeUpdate(String sql) throws SQLException {
        if (execute(sql)) {
            throw new SQLException("this gives rows");
        }
        return count;
    }

    public void addBatch() {
        batch.add(values.clone());
    }

    public void clearBatch() {
        batch.clear();
    }

    public int[] executeBatch() throws SQLException {
        List<Object[]> all = new ArrayList<>(batch);
        batch.clear();
        int[] counts = new int[all.size()];
        for (int i = 0; i < counts.length; i++) {
            values = all.get(i);
            try {
                counts[i] = executeUpdate();
            } catch (SqliteException refusal) {
                SQLException failure = Partial.failure(refusal);
                throw new BatchUpdateException(failure.getMessage(), failure.getSQLState(), failure.getErrorCode(), Arrays.copyOf(counts, i), refusal);
            }
        }
        return counts;
    }

    // ---- what it gave

    public ResultSet getResultSet() {
        return rows;
    }

    public int getUpdateCount() {
        return count;
    }

    public boolean getMoreResults() {
        rows = null;
        count = NO_COUNT;
        return false;
    }

    public ResultSet getGeneratedKeys() {
        return Partial.of(ResultSet.class, new JdbcRows(this, connection.database().prepare("SELECT last_insert_rowid() AS GENERATED_KEY")));
    }

    public ResultSetMetaData getMetaData() {
        return statement.columns() == 0 ? null : Partial.of(ResultSetMetaData.class, new JdbcColumns(statement));
    }

    public Connection getConnection() {
        return connection.proxy();
    }

    public void setFetchSize(int rowsAtATime) {
        // a cursor reads each row when it is asked for
    }

    public SQLWarning getWarnings() {
        return null;
    }

    public void clearWarnings() {
    }

    public void close() {
        isClosed = true;
        if (statement != null) {
            statement.close();
        }
    }

    public boolean isClosed() {
        return isClosed;
    }

    // ---- parameters

    public void setObject(int index, Object value) throws SQLException {
        if (index < 1 || index > values.length) {
            throw new SQLException("there are " + values.length + " parameters, and none of index " + index);
        }
        values[index - 1] = value;
    }

    public void setNull(int index, int type) throws SQLException {
        setObject(index, null);
    }

    public void setBoolean(int index, boolean value) throws SQLException {
        setObject(index, value);
    }

    public void setShort(int index, short value) throws SQLException {
        setObject(index, value);
    }

    public void setInt(int index, int value) throws SQLException {
        setObject(index, value);
    }

    public void setLong(int index, long value) throws SQLException {
        setObject(index, value);
    }

    public void setFloat(int index, float value) throws SQLException {
        setObject(index, value);
    }

    public void setDouble(int index, double value) throws SQLException {
        setObject(index, value);
    }

    public void setBigDecimal(int index, BigDecimal value) throws SQLException {
        setObject(index, value);
    }

    public void setString(int index, String value) throws SQLException {
        setObject(index, value);
    }

    public void setBytes(int index, byte[] value) throws SQLException {
        setObject(index, value);
    }

    public void clearParameters() {
        Arrays.fill(values, null);
    }
}
