package service;

import java.util.Map;
import java.util.TreeMap;

/** What the service has answered. */
final class Counters {
    private final Map<Integer, Long> answers = new TreeMap<>();
    private long inProgress;
    private long gone;

    synchronized void begin() {
        inProgress++;
    }

    /** A request was answered with this status. */
    synchronized void answered(int status) {
        inProgress--;
        answers.merge(status, 1L, Long::sum);
    }

    /** The client of a request went away before it had its answer. */
    synchronized void clientLeft() {
        inProgress--;
        gone++;
    }

    /** As JSON: requests in progress, clients that went away, answers by their status, threads that are alive, and bytes of memory in use. */
    synchronized String toJson() {
        StringBuilder json = new StringBuilder("{\"inProgress\":" + inProgress + ",\"gone\":" + gone + ",\"answers\":{");
        String separator = "";
        for (Map.Entry<Integer, Long> each : answers.entrySet()) {
            json.append(separator).append('"').append(each.getKey()).append("\":").append(each.getValue());
            separator = ",";
        }
        Runtime runtime = Runtime.getRuntime();
        return json + "},\"threads\":" + Thread.activeCount() + ",\"bytes\":" + (runtime.totalMemory() - runtime.freeMemory()) + "}\n";
    }
}
