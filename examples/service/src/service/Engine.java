package service;

import java.nio.charset.StandardCharsets;
import java.time.Duration;
import nestedvm.Call;
import nestedvm.Ending;
import nestedvm.Program;
import nestedvm.Result;

/**
 * SQLite's shell as a function: CSV to a database, and a database and SQL to rows. Each call is a guest of its own, which finds the files that it is
 * given and no others, and whose instructions, time, memory, disk and output have limits.
 */
final class Engine {
    /** The most bytes of rows. */
    static final int MOST_OUTPUT = 1 << 18;

    /** The most instructions of a call. */
    static final long MOST_INSTRUCTIONS = 50_000_000;

    /** The disk of a guest, in blocks of 4,096 bytes. */
    static final int MOST_BLOCKS = 2_048;

    private static final int MOST_ERROR_OUTPUT = 1 << 16;
    private static final int SPENT_METER = 12;
    private static final String DATABASE = "data.db";

    private final Program shell;
    private final Duration time;

    /** Calls of a metered program, which take at most so long. */
    Engine(Program shell, Duration time) {
        this.shell = shell;
        this.time = time;
    }

    /** The bytes of a database with one table, of this name, which CSV with a header fills. */
    byte[] load(String table, byte[] csv) throws Refused {
        Call call = shell.call("-bail", DATABASE, ".import --csv data.csv " + table).file("data.csv", csv);
        byte[] database = run(call, new LimitedOutput(MOST_OUTPUT)).file(DATABASE);
        if (database == null || database.length == 0) {
            throw new Refused(400, "this is not CSV with a header");
        }
        return database;
    }

    /** The rows that SQL gives over a database, as JSON. What it changes in the database is gone with the call. */
    byte[] query(byte[] database, byte[] sql) throws Refused {
        LimitedOutput rows = new LimitedOutput(MOST_OUTPUT);
        run(shell.call("-bail", "-json", DATABASE).file(DATABASE, database).input(sql), rows);
        byte[] json = rows.bytes();
        return json.length == 0 ? "[]\n".getBytes(StandardCharsets.UTF_8) : json;
    }

    private Result run(Call call, LimitedOutput output) throws Refused {
        LimitedOutput errors = new LimitedOutput(MOST_ERROR_OUTPUT);
        Result result = call.environment("HOME", "/").terminals(false, false, false).blocks(MOST_BLOCKS).instructions(MOST_INSTRUCTIONS).deadline(time)
            .output(output).errorOutput(errors).run();
        if (result.ending() != Ending.EXITED || result.status() != 0) {
            throw refusal(result, errors);
        }
        return result;
    }

    private Refused refusal(Result result, LimitedOutput errors) {
        switch (result.ending()) {
            case EXITED:
                return new Refused(400, new String(errors.bytes(), StandardCharsets.UTF_8).trim());
            case OUTPUT_FAILED:
                return new Refused(422, "the answer has more than " + MOST_OUTPUT + " bytes");
            case TIMED_OUT:
                return new Refused(422, "the query takes more than " + time.toMillis() + " milliseconds");
            case FAULTED:
                return result.fault().kind() == SPENT_METER
                    ? new Refused(422, "the query takes more than " + MOST_INSTRUCTIONS + " instructions")
                    : new Refused(500, result.line());
            default:
                return new Refused(500, result.line());
        }
    }
}
