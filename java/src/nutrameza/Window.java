package nutrameza;

import java.time.Instant;

/** An open window of a store: a session of a user, and the host that has it. */
public final class Window {
    private final long user;
    private final long window;
    private final long was;
    private final String host;
    private final Instant at;

    /** Read from a row of the store. */
    Window(Packed row) {
        user = row.number();
        window = row.number();
        was = row.number();
        host = row.text();
        at = row.time();
    }

    /**
     * The user.
     *
     * @return the user's number
     */
    public long user() {
        return user;
    }

    /**
     * The window's number, which no other window ever has.
     *
     * @return 8 times its order number plus the session
     */
    public long window() {
        return window;
    }

    /**
     * Of a window that was taken over just now: its number before.
     *
     * @return the number, else 0
     */
    public long was() {
        return was;
    }

    /**
     * The host that has it.
     *
     * @return the host's name
     */
    public String host() {
        return host;
    }

    /**
     * When it was opened or taken over, by the clock of the database.
     *
     * @return the time
     */
    public Instant at() {
        return at;
    }

    @Override
    public String toString() {
        return "window " + window + " of user " + user + " at " + host;
    }
}
