package sqlite;

import java.util.List;

/** What is done with each row of a query, whose values are texts. */
@FunctionalInterface
public interface Row {
    /**
     * Takes a row.
     *
     * @param names the names of the columns
     * @param values a text for each, null for NULL
     */
    void take(List<String> names, List<String> values);
}
