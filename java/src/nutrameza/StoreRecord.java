package nutrameza;

import java.util.UUID;

/** What a store tells of a call beside its number and extra. */
public final class StoreRecord {
    private final long window;
    private final long order;
    private final long version;
    private final boolean again;
    private final UUID token;

    StoreRecord(long window, long order, long version, boolean again, UUID token) {
        this.window = window;
        this.order = order;
        this.version = version;
        this.again = again;
        this.token = token;
    }

    /**
     * The window that a done open or adopt gave.
     *
     * @return its number, which no other window ever has; 0 of any other call
     */
    public long window() {
        return window;
    }

    /**
     * The call's number among the user's.
     *
     * @return the number; 0 where the call is not in the journal
     */
    public long order() {
        return order;
    }

    /**
     * The version of the policy that the call was made under.
     *
     * @return the version
     */
    public long version() {
        return version;
    }

    /**
     * Whether the token was recorded before, and this is the record.
     *
     * @return true if it was
     */
    public boolean again() {
        return again;
    }

    /**
     * The request's token: the host's, or the one made for it. The same request with it is done once.
     *
     * @return the token; of a call that takes none, one of zeros
     */
    public UUID token() {
        return token;
    }

    @Override
    public String toString() {
        return "order " + order + ", version " + version + ", token " + token + (again ? ", again" : "");
    }
}
