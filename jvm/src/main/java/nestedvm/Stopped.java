package nestedvm;

/** The run, or the launcher's work, ends with this answer. It is thrown through the classes of the program. */
class Stopped extends Error {
    private static final long serialVersionUID = 1;

    private final transient Answer answer;

    Stopped(Answer answer) {
        super(null, null, false, false);
        this.answer = answer;
    }

    final Answer answer() {
        return answer;
    }
}
