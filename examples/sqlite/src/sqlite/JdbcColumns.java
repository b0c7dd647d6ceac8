package sqlite;

import java.sql.ResultSetMetaData;
import java.sql.SQLException;
import java.sql.Types;
import java.util.Locale;

/** The part of {@link ResultSetMetaData} that is there. The type of a column is that of its declaration, by SQLite's rules of affinity. */
final class JdbcColumns {
    private final Statement statement;

    JdbcColumns(Statement statement) {
        this.statement = statement;
    }

    /** The number from 0 on, as SQLite counts, of a column of these rows whose number from 1 on is given. */
    static int place(Statement statement, int column) throws SQLException {
        if (column < 1 || column > statement.columns()) {
            throw new SQLException("there are " + statement.columns() + " columns, and none of number " + column);
        }
        return column - 1;
    }

    public int getColumnCount() {
        return statement.columns();
    }

    public String getColumnName(int column) throws SQLException {
        return statement.columnName(place(statement, column));
    }

    public String getColumnLabel(int column) throws SQLException {
        return statement.columnName(place(statement, column));
    }

    public String getColumnTypeName(int column) throws SQLException {
        String declaration = statement.columnDeclaration(place(statement, column));
        return declaration == null ? "" : declaration;
    }

    public int getColumnType(int column) throws SQLException {
        return typeOf(getColumnTypeName(column));
    }

    /** SQLite's affinity of a declaration, as a number of {@link Types}. */
    static int typeOf(String declaration) {
        String words = declaration.toUpperCase(Locale.ROOT);
        if (words.contains("INT")) {
            return Types.BIGINT;
        }
        if (words.contains("CHAR") || words.contains("CLOB") || words.contains("TEXT")) {
            return Types.VARCHAR;
        }
        if (words.contains("BLOB")) {
            return Types.BLOB;
        }
        if (words.contains("REAL") || words.contains("FLOA") || words.contains("DOUB")) {
            return Types.DOUBLE;
        }
        return words.isEmpty() ? Types.OTHER : Types.NUMERIC;
    }

    public int isNullable(int column) {
        return ResultSetMetaData.columnNullableUnknown;
    }
}
