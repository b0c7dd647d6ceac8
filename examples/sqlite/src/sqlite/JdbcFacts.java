package sqlite;

import java.sql.Connection;
import java.sql.DatabaseMetaData;

/** The part of {@link DatabaseMetaData} that is there. */
final class JdbcFacts {
    private final JdbcConnection connection;

    JdbcFacts(JdbcConnection connection) {
        this.connection = connection;
    }

    public String getDatabaseProductName() {
        return "SQLite";
    }

    public String getDatabaseProductVersion() {
        return connection.database().version();
    }

    public String getDriverName() {
        return "nested-sqlite";
    }

    public String getURL() {
        return connection.url();
    }

    public Connection getConnection() {
        return connection.proxy();
    }

    public boolean supportsTransactions() {
        return true;
    }

    public String getIdentifierQuoteString() {
        return "\"";
    }
}
