package nestedvm;

import java.nio.charset.StandardCharsets;

/** A call of a program, or of a function of a library, did not end well. */
public final class CallFailed extends RuntimeException {
    private static final long serialVersionUID = 1;

    /** The most bytes of error output that the message shows. */
    private static final int SHOWN_BYTES = 400;

    private final transient Result result;

    CallFailed(String name, Result result) {
        super(messageOf(name, result), result.cause());
        this.result = result;
    }

    /**
     * How the call ended.
     *
     * @return the result, null where this was read from a stream of objects
     */
    public Result result() {
        return result;
    }

    private static String messageOf(String name, Result result) {
        String end = result.line().isEmpty() ? result.ending() + ", status " + result.status() : result.line();
        String function = result.fault() == null || result.fault().function() == null ? "" : " in " + result.fault().function();
        byte[] said = result.errorOutput();
        int start = Math.max(said.length - SHOWN_BYTES, 0);
        String text = new String(said, start, said.length - start, StandardCharsets.UTF_8).trim();
        return name + ": " + end + function + (text.isEmpty() ? "" : ": " + text);
    }
}
