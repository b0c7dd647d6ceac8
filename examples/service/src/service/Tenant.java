package service;

import java.util.HashMap;
import java.util.Map;
import java.util.concurrent.Semaphore;

/** Who uses the service: tables of its own, a share of the guests that run at a time, and places for requests, running or waiting. */
final class Tenant {
    /** The most bytes of all databases of a tenant. */
    static final int MOST_BYTES = 16 << 20;

    /** The most tables of a tenant. */
    static final int MOST_TABLES = 16;

    /** The most requests of a tenant at a time: those that run, and those that wait for their turn. */
    static final int MOST_REQUESTS = 16;

    private final Map<String, byte[]> databases = new HashMap<>();
    private final Semaphore places = new Semaphore(MOST_REQUESTS);
    private final Semaphore share;

    /** A tenant that may run so many guests at a time. */
    Tenant(int guests) {
        share = new Semaphore(guests, true);
    }

    /** Begins a request, which has a place until {@link #leave}. It does not wait: without a free place the request is refused. */
    void enter() throws Refused {
        if (!places.tryAcquire()) {
            throw new Refused(429, "a tenant has at most " + MOST_REQUESTS + " requests at a time");
        }
    }

    /** Ends a request that has entered. */
    void leave() {
        places.release();
    }

    /** The guests that this tenant may still start. */
    Semaphore share() {
        return share;
    }

    /** The database of a table. */
    synchronized byte[] database(String table) throws Refused {
        byte[] database = databases.get(table);
        if (database == null) {
            throw new Refused(404, "there is no table " + table);
        }
        return database;
    }

    /** Keeps the database of a table, in place of the one before. */
    synchronized void keep(String table, byte[] database) throws Refused {
        long bytes = database.length;
        for (Map.Entry<String, byte[]> each : databases.entrySet()) {
            bytes += each.getKey().equals(table) ? 0 : each.getValue().length;
        }
        if (bytes > MOST_BYTES) {
            throw new Refused(413, "the tables of a tenant have at most " + MOST_BYTES + " bytes");
        }
        if (!databases.containsKey(table) && databases.size() == MOST_TABLES) {
            throw new Refused(413, "a tenant has at most " + MOST_TABLES + " tables");
        }
        databases.put(table, database);
    }
}
