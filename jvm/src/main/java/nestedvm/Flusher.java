package nestedvm;

/** Lets what a guest has written go out while it neither reads nor writes. */
final class Flusher extends Thread {
    private static final long PAUSE_MILLISECONDS = 50;

    private final Console console;

    Flusher(Console console) {
        super("flusher");
        this.console = console;
        setDaemon(true);
    }

    @Override
    public void run() {
        try {
            while (true) {
                Thread.sleep(PAUSE_MILLISECONDS);
                console.flush();
            }
        } catch (InterruptedException | Stopped end) {
            // The console remembers its failure, and tells it to the guest's next call or to the launcher.
        }
    }
}
