package nutrameza;

import java.nio.ByteBuffer;
import java.nio.ReadOnlyBufferException;
import java.util.BitSet;

/**
 * A ledger: what each user has and has had active. A ledger makes one call at a time, whichever threads call. What a
 * host persists, and when, is in docs/OPERATIONS.md: {@link #bytes} are the bytes.
 */
public final class Ledger {
    private final ByteBuffer bytes;

    private Ledger(ByteBuffer bytes) {
        this.bytes = bytes;
    }

    /**
     * The ledger of these bytes; the array stays the caller's.
     *
     * @param bytes the bytes of a ledger
     * @return the ledger
     */
    public static Ledger of(byte[] bytes) {
        return new Ledger(direct(bytes));
    }

    /**
     * A ledger that stands in the host's own buffer, between its position and its limit, without a copy: the calls
     * change it there. While a call runs nobody else reads or writes it.
     *
     * @param bytes the buffer; a direct one is given to the library as it is
     * @return the ledger
     * @throws ReadOnlyBufferException for a buffer that may not be written
     */
    public static Ledger over(ByteBuffer bytes) {
        if (bytes.isReadOnly()) {
            throw new ReadOnlyBufferException();
        }
        return new Ledger(bytes.slice());
    }

    /** A direct buffer with these bytes. */
    static ByteBuffer direct(byte[] bytes) {
        return ByteBuffer.allocateDirect(bytes.length).put(bytes).flip();
    }

    /** The ledger as the calls take it, for a caller that holds this ledger's monitor. */
    ByteBuffer buffer() {
        return bytes;
    }

    /**
     * The ledger's bytes as they stand between two calls.
     *
     * @return the bytes, an array of its own at each reading
     */
    public synchronized byte[] bytes() {
        byte[] copy = new byte[bytes.limit()];
        bytes.duplicate().get(copy);
        return copy;
    }

    /**
     * The sessions that a user has open. Nothing is judged.
     *
     * @param user the user
     * @return session s as bit s; none where the ledger has no line for the user
     */
    public synchronized BitSet openSessions(long user) {
        if (user < 0 || user >= bytes.limit() / Limits.LINE_BYTES) {
            return new BitSet();
        }
        return BitSet.valueOf(new byte[] {bytes.get((int) user * Limits.LINE_BYTES)});
    }

    /**
     * Takes a user's lowest closed session, empty.
     *
     * @param policy the policy
     * @param user the user
     * @return the session that it took
     */
    public synchronized Answer.Opened open(Policy policy, long user) {
        return new Answer.Opened(Returned.of(Call.OPEN, Kit.open(policy.image(), bytes, user)));
    }

    /**
     * A session of a user under a policy. Nothing is judged and nothing opened: its calls tell what it is.
     *
     * @param policy the policy
     * @param user the user
     * @param session the session's number
     * @return the session
     */
    public Session session(Policy policy, long user, long session) {
        return new Session(this, policy, user, session);
    }

    /**
     * Whom a policy would stop: the users whose line is not sound under it.
     *
     * @param policy the policy
     * @return the users
     */
    public synchronized Answer.Stopped stopped(Policy policy) {
        ByteBuffer users = ByteBuffer.allocate(Limits.USERS_BYTES);
        return new Answer.Stopped(Returned.of(Call.STOPPED, Kit.stopped(policy.image(), bytes, users), users.array()));
    }

    /**
     * This ledger of four sessions a user carried over into one of eight.
     *
     * @param policy the policy
     * @return the new ledger
     */
    public synchronized Answer.Carried widen(Policy policy) {
        ByteBuffer made = ByteBuffer.allocate(Limits.LINE_BYTES * policy.users());
        return new Answer.Carried(Returned.of(Call.WIDEN, Kit.widen(policy.image(), bytes, made), made.array()));
    }

    /**
     * This ledger of eight sessions a user carried back into one of four.
     *
     * @param policy the policy
     * @return the new ledger
     */
    public synchronized Answer.Carried narrow(Policy policy) {
        ByteBuffer made = ByteBuffer.allocate(Limits.OLD_LINE_BYTES * policy.users());
        return new Answer.Carried(Returned.of(Call.NARROW, Kit.narrow(policy.image(), bytes, made), made.array()));
    }

    @Override
    public String toString() {
        return "a ledger of " + bytes.limit() + " bytes";
    }
}
