package nutrameza;

/**
 * Who follows a verify. It is called by the thread that verifies, within the call: it calls no method of the store that
 * it follows, which is an {@link IllegalStateException}. What it throws ends the verify, and the verify throws it.
 */
public interface Watcher {
    /**
     * After every thousand entries.
     *
     * @param soFar what was found so far
     * @return true to go on, false to end the verify, which is then refused by {@link Refusal#ENDED}
     */
    default boolean step(Report soFar) {
        return true;
    }

    /**
     * A finding.
     *
     * @param finding what was found
     */
    default void found(Finding finding) {
    }
}
