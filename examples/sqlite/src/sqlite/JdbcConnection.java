package sqlite;

import java.sql.Connection;
import java.sql.DatabaseMetaData;
import java.sql.PreparedStatement;
import java.sql.SQLException;
import java.sql.SQLFeatureNotSupportedException;
import java.sql.SQLWarning;

/** The part of {@link Connection} that is there. A transaction begins with the first statement after the last one ended, unless each statement is one. */
final class JdbcConnection {
    private final Database database;
    private final String url;
    private final Connection proxy = Partial.of(Connection.class, this);
    private boolean isAutoCommit = true;

    JdbcConnection(Database database, String url) {
        this.database = database;
        this.url = url;
    }

    Connection proxy() {
        return proxy;
    }

    Database database() {
        return database;
    }

    String url() {
        return url;
    }

    /** A statement is about to be run. */
    void begin() {
        if (!isAutoCommit && !database.isInTransaction()) {
            database.execute("BEGIN");
        }
    }

    public java.sql.Statement createStatement() {
        return Partial.of(java.sql.Statement.class, new JdbcStatement(this, null));
    }

    public PreparedStatement prepareStatement(String sql) {
        return Partial.of(PreparedStatement.class, new JdbcStatement(this, database.prepare(sql)));
    }

    /** The generated key is there whether it is asked for or not. */
    public PreparedStatement prepareStatement(String sql, int generatedKeys) {
        return prepareStatement(sql);
    }

    public boolean getAutoCommit() {
        return isAutoCommit;
    }

    public void setAutoCommit(boolean value) {
        if (value && database.isInTransaction()) {
            database.execute("COMMIT");
        }
        isAutoCommit = value;
    }

    public void commit() throws SQLException {
        end("COMMIT");
    }

    public void rollback() throws SQLException {
        end("ROLLBACK");
    }

    private void end(String sql) throws SQLException {
        if (isAutoCommit) {
            throw new SQLException("each statement is a transaction", "25000");
        }
        if (database.isInTransaction()) {
            database.execute(sql);
        }
    }

    public void close() {
        database.close();
    }

    public boolean isClosed() {
        return database.isClosed();
    }

    public boolean isValid(int seconds) {
        return !database.isClosed();
    }

    public DatabaseMetaData getMetaData() {
        return Partial.of(DatabaseMetaData.class, new JdbcFacts(this));
    }

    public String nativeSQL(String sql) {
        return sql;
    }

    public boolean isReadOnly() {
        return false;
    }

    public String getCatalog() {
        return null;
    }

    public String getSchema() {
        return null;
    }

    public int getTransactionIsolation() {
        return Connection.TRANSACTION_SERIALIZABLE;
    }

    public void setTransactionIsolation(int level) throws SQLException {
        if (level != Connection.TRANSACTION_SERIALIZABLE) {
            throw new SQLFeatureNotSupportedException("transactions are serializable");
        }
    }

    public SQLWarning getWarnings() {
        return null;
    }

    public void clearWarnings() {
    }
}
