package sqlite;

import java.math.BigDecimal;
import java.sql.ResultSet;
import java.sql.ResultSetMetaData;
import java.sql.SQLException;
import java.sql.SQLWarning;

/** The part of {@link ResultSet} that is there: forwards alone, over the cursor of a statement. */
final class JdbcRows {
    private final JdbcStatement owner;
    private final Statement statement;
    private int row;
    private boolean isOnRow;
    private boolean isClosed;
    private boolean wasNull;

    JdbcRows(JdbcStatement owner, Statement statement) {
        this.owner = owner;
        this.statement = statement;
    }

    public boolean next() throws SQLException {
        if (isClosed) {
            throw new SQLException("the rows are closed");
        }
        isOnRow = (row == 0 || isOnRow) && statement.next();
        row = isOnRow ? row + 1 : row;
        return isOnRow;
    }

    public int getRow() {
        return isOnRow ? row : 0;
    }

    public boolean isBeforeFirst() {
        return row == 0 && !isOnRow;
    }

    public void close() {
        if (!isClosed && !owner.isClosed()) {
            statement.reset();
        }
        isClosed = true;
        isOnRow = false;
    }

    public boolean isClosed() {
        return isClosed;
    }

    public boolean wasNull() {
        return wasNull;
    }

    public int findColumn(String label) throws SQLException {
        for (int i = 0; i < statement.columns(); i++) {
            if (statement.columnName(i).equalsIgnoreCase(label)) {
                return i + 1;
            }
        }
        throw new SQLException("there is no column " + label);
    }

    public ResultSetMetaData getMetaData() {
        return Partial.of(ResultSetMetaData.class, new JdbcColumns(statement));
    }

    public SQLWarning getWarnings() {
        return null;
    }

    /** The number from 0 on of a column of the row, which is read now. */
    private int at(int column) throws SQLException {
        if (!isOnRow) {
            throw new SQLException("this is on no row");
        }
        int place = JdbcColumns.place(statement, column);
        wasNull = statement.isNull(place);
        return place;
    }

    public Object getObject(int column) throws SQLException {
        return statement.get(at(column));
    }

    public String getString(int column) throws SQLException {
        return statement.getText(at(column));
    }

    public byte[] getBytes(int column) throws SQLException {
        return statement.getBytes(at(column));
    }

    public long getLong(int column) throws SQLException {
        return statement.getLong(at(column));
    }

    public int getInt(int column) throws SQLException {
        return (int) getLong(column);
    }

    public short getShort(int column) throws SQLException {
        return (short) getLong(column);
    }

    public boolean getBoolean(int column) throws SQLException {
        return getLong(column) != 0;
    }

    public double getDouble(int column) throws SQLException {
        return statement.getDouble(at(column));
    }

    public float getFloat(int column) throws SQLException {
        return (float) getDouble(column);
    }

    public BigDecimal getBigDecimal(int column) throws SQLException {
        String text = getString(column);
        return text == null ? null : new BigDecimal(text);
    }

    public Object getObject(String label) throws SQLException {
        return getObject(findColumn(label));
    }

    public String getString(String label) throws SQLException {
        return getString(findColumn(label));
    }

    public byte[] getBytes(String label) throws SQLException {
        return getBytes(findColumn(label));
    }

    public long getLong(String label) throws SQLException {
        return getLong(findColumn(label));
    }

    public int getInt(String label) throws SQLException {
        return getInt(findColumn(label));
    }

    public short getShort(String label) throws SQLException {
        return getShort(findColumn(label));
    }

    public boolean getBoolean(String label) throws SQLException {
        return getBoolean(findColumn(label));
    }

    public double getDouble(String label) throws SQLException {
        return getDouble(findColumn(label));
    }

    public float getFloat(String label) throws SQLException {
        return getFloat(findColumn(label));
    }

    public BigDecimal getBigDecimal(String label) throws SQLException {
        return getBigDecimal(findColumn(label));
    }
}
