package nutrameza;

/** What a replay of a journal found. */
public final class Report {
    private final long calls;
    private final long differences;
    private final long incidents;
    private final String words;

    /** Read from a row of the store. */
    Report(Packed row) {
        calls = row.number();
        differences = row.number();
        incidents = row.number();
        words = row.text();
    }

    /**
     * How many entries were replayed.
     *
     * @return how many
     */
    public long calls() {
        return calls;
    }

    /**
     * How often journal, lines and windows are not what the kit gives in the replay.
     *
     * @return how often
     */
    public long differences() {
        return differences;
    }

    /**
     * Lines that were damaged for a time, and what was told meanwhile; the ward is well.
     *
     * @return how many
     */
    public long incidents() {
        return incidents;
    }

    /**
     * The first differences in words.
     *
     * @return the words; none where there is no difference
     */
    public String words() {
        return words;
    }

    @Override
    public String toString() {
        return calls + " calls, " + differences + " differences, " + incidents + " incidents";
    }
}
