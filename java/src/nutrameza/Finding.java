package nutrameza;

/** A finding of a replay: a difference or an incident. */
public final class Finding {
    private final long user;
    private final long order;
    private final boolean incident;
    private final String words;

    /** Read from a row of the store. */
    Finding(Packed row) {
        user = row.number();
        order = row.number();
        incident = row.number() != 0;
        words = row.text();
    }

    /**
     * The user.
     *
     * @return the user's number
     */
    public long user() {
        return user;
    }

    /**
     * The entry's number among the user's.
     *
     * @return the number
     */
    public long order() {
        return order;
    }

    /**
     * Whether it is an incident, and no difference.
     *
     * @return true of an incident
     */
    public boolean incident() {
        return incident;
    }

    /**
     * What was found.
     *
     * @return the words
     */
    public String words() {
        return words;
    }

    @Override
    public String toString() {
        return user + " " + order + ": " + words;
    }
}
