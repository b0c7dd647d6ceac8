package sqlite;

import java.nio.file.Paths;
import java.sql.Connection;
import java.sql.DriverManager;
import java.sql.DriverPropertyInfo;
import java.sql.SQLException;
import java.sql.SQLFeatureNotSupportedException;
import java.util.Properties;
import java.util.logging.Logger;

/**
 * The driver for {@code jdbc:nested-sqlite:FILE}, and for {@code jdbc:nested-sqlite::memory:}, an empty database in memory. It has what programs use
 * most: statements, parameters, rows, metadata of columns and transactions.
 */
public final class Driver implements java.sql.Driver {
    private static final String PREFIX = "jdbc:nested-sqlite:";

    static {
        try {
            DriverManager.registerDriver(new Driver());
        } catch (SQLException failure) {
            throw new ExceptionInInitializerError(failure);
        }
    }

    @Override
    public Connection connect(String url, Properties properties) throws SQLException {
        if (!acceptsURL(url)) {
            return null;
        }
        String name = url.substring(PREFIX.length());
        try {
            Database database = name.equals(":memory:") ? Database.inMemory() : Database.inFile(Paths.get(name));
            return new JdbcConnection(database, url).proxy();
        } catch (RuntimeException failure) {
            throw new SQLException(failure.getMessage(), "08001", failure);
        }
    }

    @Override
    public boolean acceptsURL(String url) {
        return url.startsWith(PREFIX);
    }

    @Override
    public DriverPropertyInfo[] getPropertyInfo(String url, Properties properties) {
        return new DriverPropertyInfo[0];
    }

    @Override
    public int getMajorVersion() {
        return 1;
    }

    @Override
    public int getMinorVersion() {
        return 0;
    }

    @Override
    public boolean jdbcCompliant() {
        return false;
    }

    @Override
    public Logger getParentLogger() throws SQLFeatureNotSupportedException {
        throw new SQLFeatureNotSupportedException("there is no log");
    }
}
