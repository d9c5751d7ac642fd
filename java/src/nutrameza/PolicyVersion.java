package nutrameza;

import java.time.Instant;

/** A policy that a ward of a store has or had. */
public final class PolicyVersion {
    private final long version;
    private final Policy policy;
    private final String host;
    private final Instant at;

    /** Read from a row of the store. */
    PolicyVersion(Packed row) {
        version = row.number();
        policy = Policy.of(row.bytes());
        host = row.text();
        at = row.time();
    }

    /**
     * The version.
     *
     * @return the version, from 1 up
     */
    public long version() {
        return version;
    }

    /**
     * The policy.
     *
     * @return the policy
     */
    public Policy policy() {
        return policy;
    }

    /**
     * The host that put it in place.
     *
     * @return the host's name
     */
    public String host() {
        return host;
    }

    /**
     * When it was put in place, by the clock of the database.
     *
     * @return the time
     */
    public Instant at() {
        return at;
    }

    @Override
    public String toString() {
        return "version " + version + ", " + policy;
    }
}
