package service;

import com.sun.net.httpserver.Headers;
import com.sun.net.httpserver.HttpExchange;
import com.sun.net.httpserver.HttpHandler;
import java.io.ByteArrayOutputStream;
import java.io.IOException;
import java.io.InputStream;
import java.nio.charset.StandardCharsets;
import java.util.Map;
import java.util.regex.Pattern;

/**
 * Answers what tenants ask:
 *
 * <ul>
 * <li>{@code PUT /tables/NAME} with CSV keeps a table,
 * <li>{@code POST /tables/NAME} with SQL gives the rows as JSON.
 * </ul>
 *
 * A tenant says its key: {@code Authorization: Bearer KEY}.
 */
final class Requests implements HttpHandler {
    /** The most bytes of a request. */
    static final int MOST_INPUT = 1 << 20;

    private static final String JSON = "application/json";
    private static final String SCHEME = "Bearer ";
    private static final Pattern PATH = Pattern.compile("/tables/[A-Za-z][A-Za-z0-9_]{0,30}");

    private final Map<String, Tenant> tenants;
    private final Engine engine;
    private final Turns turns;
    private final Counters counters;

    Requests(Map<String, Tenant> tenants, Engine engine, Turns turns, Counters counters) {
        this.tenants = tenants;
        this.engine = engine;
        this.turns = turns;
        this.counters = counters;
    }

    @Override
    public void handle(HttpExchange exchange) throws IOException {
        counters.begin();
        try {
            counters.answered(serve(exchange));
        } catch (IOException left) {
            counters.clientLeft();
        } catch (RuntimeException | Error thrown) {
            counters.answered(500);
            throw thrown;
        } finally {
            exchange.close();
        }
    }

    /** Answers a request, and gives the status. It has a place of its tenant before its body is read, and until its answer is written. */
    private int serve(HttpExchange exchange) throws IOException {
        Tenant tenant;
        try {
            tenant = tenantOf(exchange.getRequestHeaders());
            tenant.enter();
        } catch (Refused refused) {
            return refuse(exchange, refused);
        }
        try {
            Answers.send(exchange, 200, JSON, answer(tenant, exchange));
            return 200;
        } catch (Refused refused) {
            return refuse(exchange, refused);
        } finally {
            tenant.leave();
        }
    }

    private static int refuse(HttpExchange exchange, Refused refused) throws IOException {
        if (refused.status() == 429) {
            exchange.getResponseHeaders().set("Retry-After", "1");
        }
        Answers.send(exchange, refused.status(), JSON, errorOf(refused.getMessage()));
        return refused.status();
    }

    private byte[] answer(Tenant tenant, HttpExchange exchange) throws Refused, IOException {
        String path = exchange.getRequestURI().getPath();
        if (!PATH.matcher(path).matches()) {
            throw new Refused(404, "there is no " + path);
        }
        String table = path.substring(path.lastIndexOf('/') + 1);
        byte[] body = bodyOf(exchange.getRequestBody());
        switch (exchange.getRequestMethod()) {
            case "PUT":
                tenant.keep(table, inTurn(tenant, () -> engine.load(table, body)));
                return "{}\n".getBytes(StandardCharsets.UTF_8);
            case "POST":
                byte[] database = tenant.database(table);
                return inTurn(tenant, () -> engine.query(database, body));
            default:
                throw new Refused(405, "a table takes PUT and POST");
        }
    }

    private Tenant tenantOf(Headers headers) throws Refused {
        String words = headers.getFirst("Authorization");
        Tenant tenant = words != null && words.startsWith(SCHEME) ? tenants.get(words.substring(SCHEME.length())) : null;
        if (tenant == null) {
            throw new Refused(401, "this is the key of no tenant");
        }
        return tenant;
    }

    /** The whole body. Of one that is too large some more is read, so that its client comes to read the answer. */
    private static byte[] bodyOf(InputStream stream) throws Refused, IOException {
        ByteArrayOutputStream body = new ByteArrayOutputStream();
        byte[] part = new byte[8_192];
        long length = 0;
        for (int count = stream.read(part); count >= 0 && length < 4L * MOST_INPUT; count = stream.read(part)) {
            length += count;
            if (length <= MOST_INPUT) {
                body.write(part, 0, count);
            }
        }
        if (length > MOST_INPUT) {
            throw new Refused(413, "a request has at most " + MOST_INPUT + " bytes");
        }
        return body.toByteArray();
    }

    /** Work of a guest, which throws nothing but refusals. */
    private interface Work {
        byte[] run() throws Refused;
    }

    private byte[] inTurn(Tenant tenant, Work work) throws Refused {
        try {
            return turns.take(tenant, work::run);
        } catch (Refused | RuntimeException thrown) {
            throw thrown;
        } catch (Exception interrupted) {
            throw new Refused(503, "the service stops");
        }
    }

    private static byte[] errorOf(String message) {
        StringBuilder json = new StringBuilder("{\"error\":\"");
        for (char each : message.toCharArray()) {
            if (each == '"' || each == '\\') {
                json.append('\\').append(each);
            } else if (each < ' ') {
                json.append(String.format("\\u%04x", (int) each));
            } else {
                json.append(each);
            }
        }
        return json.append("\"}\n").toString().getBytes(StandardCharsets.UTF_8);
    }
}
