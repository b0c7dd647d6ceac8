package service;

import java.util.concurrent.Callable;
import java.util.concurrent.Semaphore;
import java.util.concurrent.TimeUnit;

/** Lets so many guests run at a time, and of each tenant some fewer, so that one that keeps its guests busy holds up nobody else. */
final class Turns {
    /** How long a request waits for its turn, in milliseconds. */
    static final long MOST_WAIT = 10_000;

    private final Semaphore guests;

    /** So many guests at a time. */
    Turns(int guests) {
        this.guests = new Semaphore(guests, true);
    }

    /** Does some work of a tenant when it is its turn, in this thread. */
    <T> T take(Tenant tenant, Callable<T> work) throws Exception {
        enter(tenant.share(), 429, "other queries of this tenant take all turns");
        try {
            enter(guests, 503, "queries of other tenants take all turns");
            try {
                return work.call();
            } finally {
                guests.release();
            }
        } finally {
            tenant.share().release();
        }
    }

    private static void enter(Semaphore semaphore, int status, String message) throws Refused, InterruptedException {
        if (!semaphore.tryAcquire(MOST_WAIT, TimeUnit.MILLISECONDS)) {
            throw new Refused(status, message);
        }
    }
}
