package service;

import com.sun.net.httpserver.HttpServer;
import java.io.ByteArrayOutputStream;
import java.io.IOException;
import java.io.InputStream;
import java.net.InetAddress;
import java.net.InetSocketAddress;
import java.nio.charset.StandardCharsets;
import java.nio.file.Files;
import java.nio.file.Path;
import java.nio.file.Paths;
import java.time.Duration;
import java.util.HashMap;
import java.util.List;
import java.util.Map;
import java.util.concurrent.Executors;
import nestedvm.Program;

/** A service that answers SQL over tables which its tenants send. It is the JDK's own server, and runs SQLite's shell for each of them. */
public final class Service {
    /** The threads beside one for each place of a tenant: they read who asks, and refuse. */
    private static final int MORE_THREADS = 16;

    /** Calls that are made before the first request is taken, so that the guest's code is compiled. */
    private static final int FIRST_CALLS = 20;

    /** The most time of one of these. */
    private static final Duration LONG = Duration.ofHours(1);

    private Service() {
    }

    /**
     * Starts the service.
     *
     * @param words the port, the number of guests that run at a time, the most milliseconds of one, and a file with the keys of the tenants, one a line
     * @throws IOException if the file cannot be read, or the port cannot be taken
     */
    public static void main(String[] words) throws IOException {
        int guests = Integer.parseInt(words[1]);
        Program shell = Program.of(Service.class.getClassLoader(), "sqlite3/Sqlite3");
        warm(new Engine(shell, LONG));
        Engine engine = new Engine(shell, Duration.ofMillis(Long.parseLong(words[2])));
        Counters counters = new Counters();
        Map<String, Tenant> tenants = tenants(Paths.get(words[3]), guests);
        Requests requests = new Requests(tenants, engine, new Turns(guests), counters);
        byte[] page = page();
        HttpServer server = HttpServer.create(new InetSocketAddress(InetAddress.getLoopbackAddress(), Integer.parseInt(words[0])), 128);
        server.setExecutor(Executors.newFixedThreadPool(tenants.size() * Tenant.MOST_REQUESTS + MORE_THREADS));
        server.createContext("/tables/", requests);
        server.createContext("/status", exchange ->
            Answers.send(exchange, 200, "application/json", counters.toJson().getBytes(StandardCharsets.UTF_8)));
        server.createContext("/", exchange -> Answers.send(exchange, 200, "text/html; charset=utf-8", page));
        server.start();
        System.out.println("ready");
    }

    /** Each tenant may run all guests but one, so that one is left for the others. */
    private static Map<String, Tenant> tenants(Path keys, int guests) throws IOException {
        Map<String, Tenant> tenants = new HashMap<>();
        List<String> lines = Files.readAllLines(keys);
        for (String key : lines) {
            tenants.put(key, new Tenant(Math.max(guests - 1, 1)));
        }
        return tenants;
    }

    private static void warm(Engine engine) {
        try {
            for (int i = 0; i < FIRST_CALLS; i++) {
                byte[] database = engine.load("first", "a,b\n1,2\n".getBytes(StandardCharsets.UTF_8));
                engine.query(database, "SELECT sum(a), max(b) FROM first GROUP BY a ORDER BY b;".getBytes(StandardCharsets.UTF_8));
            }
        } catch (Refused refused) {
            throw new IllegalStateException(refused);
        }
    }

    private static byte[] page() throws IOException {
        try (InputStream stream = Service.class.getResourceAsStream("page.html")) {
            ByteArrayOutputStream page = new ByteArrayOutputStream();
            for (int next = stream.read(); next >= 0; next = stream.read()) {
                page.write(next);
            }
            return page.toByteArray();
        }
    }
}
