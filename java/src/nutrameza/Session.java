package nutrameza;

import java.nio.ByteBuffer;
import java.util.Arrays;
import java.util.Objects;

/**
 * A session of a user: one window, in which roles are active. It stands on a ledger under a policy and keeps nothing of
 * its own, so any number of these may speak of the same session, and one of a closed session is told so by its calls.
 */
public final class Session {
    /** A clause text's room where the caller names none: more than most texts need, twice as much until one fits. */
    private static final int FIRST_ROOM = 1 << 16;

    private final Ledger ledger;
    private final Policy policy;
    private final long user;
    private final long number;

    Session(Ledger ledger, Policy policy, long user, long number) {
        this.ledger = ledger;
        this.policy = Objects.requireNonNull(policy, "policy");
        this.user = user;
        this.number = number;
    }

    /**
     * The user.
     *
     * @return the user's number
     */
    public long user() {
        return user;
    }

    /**
     * The session's number among the user's.
     *
     * @return the number
     */
    public long number() {
        return number;
    }

    /**
     * The same session under another policy.
     *
     * @param next the policy
     * @return the session
     */
    public Session under(Policy next) {
        return new Session(ledger, next, user, number);
    }

    /**
     * Ends the session; what was active in it stays in the user's history.
     *
     * @return done, or why it is refused
     */
    public Answer close() {
        synchronized (ledger) {
            return new Answer(Returned.of(Call.CLOSE, Kit.close(policy.image(), ledger.buffer(), user, number)));
        }
    }

    /**
     * Replaces the active roles by the best set that carries all of the lower bound and nothing outside the upper.
     *
     * @param lower what is needed
     * @param upper what is allowed
     * @param permissionAim the aim for permissions
     * @param roleAim the aim for roles, among sets that are alike by the first
     * @return the roles, or why there are none
     */
    public Answer.Chosen ask(PermissionSet lower, PermissionSet upper, Aim permissionAim, Aim roleAim) {
        ByteBuffer answer = ByteBuffer.allocate(Limits.ANSWER_BYTES);
        ByteBuffer low = bytes(lower);
        ByteBuffer high = bytes(upper);
        int first = permissionAim.number();
        int second = roleAim.number();
        synchronized (ledger) {
            long returned = Kit.ask(policy.image(), ledger.buffer(), user, number, low, high, first, second, answer);
            return new Answer.Chosen(Returned.of(Call.ASK, returned, answer.array()));
        }
    }

    /**
     * An ask for the fewest permissions, then the fewest roles.
     *
     * @param lower what is needed
     * @param upper what is allowed
     * @return the roles, or why there are none
     */
    public Answer.Chosen shortAsk(PermissionSet lower, PermissionSet upper) {
        ByteBuffer answer = ByteBuffer.allocate(Limits.ANSWER_BYTES);
        ByteBuffer low = bytes(lower);
        ByteBuffer high = bytes(upper);
        synchronized (ledger) {
            long returned = Kit.shortAsk(policy.image(), ledger.buffer(), user, number, low, high, answer);
            return new Answer.Chosen(Returned.of(Call.SHORT_ASK, returned, answer.array()));
        }
    }

    /**
     * What is active: the roles and what they carry.
     *
     * @return the roles
     */
    public Answer.Chosen show() {
        ByteBuffer answer = ByteBuffer.allocate(Limits.ANSWER_BYTES);
        synchronized (ledger) {
            long returned = Kit.show(policy.image(), ledger.buffer(), user, number, answer);
            return new Answer.Chosen(Returned.of(Call.SHOW, returned, answer.array()));
        }
    }

    /**
     * Through which roles the session carries a permission.
     *
     * @param permission the permission
     * @return the roles; refused by {@link Refusal#NONE} where it does not carry it
     */
    public Answer.Explained explain(long permission) {
        synchronized (ledger) {
            long returned = Kit.explain(policy.image(), ledger.buffer(), user, number, permission);
            return new Answer.Explained(Returned.of(Call.EXPLAIN, returned));
        }
    }

    /**
     * What stands in the way of an ask with these bounds.
     *
     * @param lower what is needed
     * @param upper what is allowed
     * @return what stands in the way; refused by {@link Refusal#NONE} where nothing does
     */
    public Answer.Obstacle obstacle(PermissionSet lower, PermissionSet upper) {
        ByteBuffer roles = ByteBuffer.allocate(Limits.OBSTACLE_BYTES);
        ByteBuffer low = bytes(lower);
        ByteBuffer high = bytes(upper);
        synchronized (ledger) {
            long returned = Kit.obstacle(policy.image(), ledger.buffer(), user, number, low, high, roles);
            return new Answer.Obstacle(Returned.of(Call.OBSTACLE, returned, roles.array()));
        }
    }

    /**
     * An ask as weighted clauses for a PMaxSAT program.
     *
     * @param lower what is needed
     * @param upper what is allowed
     * @param permissionAim the aim for permissions
     * @param roleAim the aim for roles
     * @return the text
     */
    public Answer.Text clauses(PermissionSet lower, PermissionSet upper, Aim permissionAim, Aim roleAim) {
        int room = FIRST_ROOM;
        Answer.Text text = clauses(lower, upper, permissionAim, roleAim, room);
        while (text.refusedBy(Refusal.ROOM) && room < Limits.MAX_CLAUSES_BYTES) {
            room *= 2;
            text = clauses(lower, upper, permissionAim, roleAim, room);
        }
        return text;
    }

    /**
     * An ask as weighted clauses, if the text has at most so many bytes.
     *
     * @param lower what is needed
     * @param upper what is allowed
     * @param permissionAim the aim for permissions
     * @param roleAim the aim for roles
     * @param room the most bytes
     * @return the text; refused by {@link Refusal#ROOM} where it has more
     * @throws IllegalArgumentException for a room below 0
     */
    public Answer.Text clauses(PermissionSet lower, PermissionSet upper, Aim permissionAim, Aim roleAim, int room) {
        ByteBuffer out = ByteBuffer.allocate(room);
        ByteBuffer low = bytes(lower);
        ByteBuffer high = bytes(upper);
        int first = permissionAim.number();
        int second = roleAim.number();
        long returned;
        synchronized (ledger) {
            returned = Kit.clauses(policy.image(), ledger.buffer(), user, number, low, high, first, second, out);
        }
        int size = Kit.isDone(returned) ? (int) Kit.extra(returned) : 0;
        return new Answer.Text(Returned.of(Call.CLAUSES, returned, Arrays.copyOf(out.array(), size)));
    }

    private static ByteBuffer bytes(PermissionSet set) {
        return ByteBuffer.wrap(set.toBytes());
    }

    @Override
    public String toString() {
        return "session " + Long.toUnsignedString(number) + " of user " + Long.toUnsignedString(user);
    }
}
