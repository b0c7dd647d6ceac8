package nestedvm;

/** The guest has left or faulted. This ends its run, but not the launcher's work. */
final class Ended extends Stopped {
    private static final long serialVersionUID = 1;

    Ended(Answer answer) {
        super(answer);
    }
}
