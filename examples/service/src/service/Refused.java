package service;

/** A request is answered with an error: a status of HTTP, and a sentence that says why. */
final class Refused extends Exception {
    private static final long serialVersionUID = 1;

    private final int status;

    Refused(int status, String message) {
        super(message);
        this.status = status;
    }

    /** The status of HTTP, 400 to 599. */
    int status() {
        return status;
    }
}
