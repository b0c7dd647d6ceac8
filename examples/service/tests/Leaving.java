import java.io.IOException;
import java.io.OutputStream;
import java.net.InetAddress;
import java.net.Socket;
import java.nio.charset.StandardCharsets;
import java.util.ArrayList;
import java.util.List;

/** Clients that go away: `Leaving PORT KEY COUNT`, so many of each kind. */
public final class Leaving {
    private Leaving() {
    }

    /** Says nothing, a part of a request's head, a part of its body, and a whole request whose answer it does not read. */
    public static void main(String[] words) throws IOException {
        int port = Integer.parseInt(words[0]);
        String sql = "SELECT count(*) FROM data AS a, data AS b;";
        String head = "POST /tables/data HTTP/1.1\r\nHost: here\r\nAuthorization: Bearer " + words[1] + "\r\nContent-Length: " + sql.length() + "\r\n\r\n";
        String[] kinds = {"", head.substring(0, 20), head + sql.substring(0, 7), head + sql};
        List<Socket> waiting = new ArrayList<>();
        for (int i = 0; i < Integer.parseInt(words[2]); i++) {
            for (String kind : kinds) {
                Socket socket = new Socket(InetAddress.getLoopbackAddress(), port);
                OutputStream stream = socket.getOutputStream();
                stream.write(kind.getBytes(StandardCharsets.US_ASCII));
                stream.flush();
                // every other one goes at once, and the rest when all have come
                if (i % 2 == 0) {
                    socket.setSoLinger(true, 0);
                    socket.close();
                } else {
                    waiting.add(socket);
                }
            }
        }
        for (Socket socket : waiting) {
            socket.close();
        }
    }
}
