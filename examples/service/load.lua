-- What wrk sends: the same query again and again, the one that the variable SQL has, with the key that KEY has. At the end a line: answers,
-- answers a second, answers of another status than 200, failures of connections, and the milliseconds within which 50, 99 and 99.9 per cent
-- were answered.
wrk.method = "POST"
wrk.body = os.getenv("SQL") or "SELECT kind, count(*) AS number, sum(weight) AS weight FROM data WHERE weight > 10 GROUP BY kind ORDER BY kind;"
wrk.headers["Authorization"] = "Bearer " .. os.getenv("KEY")

function done(summary, latency)
    local errors = summary.errors
    io.write(string.format("load %d %.1f %d %d %.1f %.1f %.1f\n", summary.requests, summary.requests / summary.duration * 1e6, errors.status,
        errors.connect + errors.read + errors.write + errors.timeout,
        latency:percentile(50) / 1e3, latency:percentile(99) / 1e3, latency:percentile(99.9) / 1e3))
end
