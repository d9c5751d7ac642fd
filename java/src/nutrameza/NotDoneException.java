package nutrameza;

/** What a refused call does not have was read. */
public final class NotDoneException extends IllegalStateException {
    private static final long serialVersionUID = 1;

    private final transient Answer answer;

    NotDoneException(String what, Answer answer) {
        super("no " + what + ": " + answer);
        this.answer = answer;
    }

    /**
     * The answer of the refused call.
     *
     * @return the answer; null where the exception was read from a stream
     */
    public Answer answer() {
        return answer;
    }
}
