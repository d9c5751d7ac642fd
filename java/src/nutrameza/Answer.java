package nutrameza;

import java.nio.charset.StandardCharsets;
import java.util.Arrays;
import java.util.List;
import java.util.Objects;
import java.util.Optional;
import java.util.stream.Collectors;
import java.util.stream.IntStream;

/**
 * What a call answers: its number and extra, and of a done call what it filled. Its subclasses have what their call
 * has; what only a done call has (roles, a session, a text and so on) throws {@link NotDoneException} where the call
 * was refused, so that no refusal is taken for an empty set.
 */
public class Answer {
    private final Returned returned;

    Answer(Returned returned) {
        this.returned = returned;
    }

    /**
     * The call's name in words.
     *
     * @return the name, as in "short ask"
     */
    public final String call() {
        return returned.call;
    }

    /**
     * The answer number.
     *
     * @return 0 for a done call, else the number of its refusal
     */
    public final int number() {
        return Kit.number(returned.value);
    }

    /**
     * What is told beside the number: docs/REFERENCE.md says what of which call.
     *
     * @return the extra; 0 where there is none
     */
    public final long extra() {
        return Kit.extra(returned.value);
    }

    /**
     * Whether the call did what it is for.
     *
     * @return true if it is done, false if it was refused
     */
    public final boolean isDone() {
        return number() == 0;
    }

    /**
     * Why the call was refused.
     *
     * @return the refusal; empty of a done call
     */
    public final Optional<Refusal> refusal() {
        return isDone() ? Optional.empty() : Optional.of(Refusal.of(number()));
    }

    /**
     * Whether the call was refused so.
     *
     * @param refusal a refusal
     * @return true if it was
     */
    public final boolean refusedBy(Refusal refusal) {
        return refusal().filter(refusal::equals).isPresent();
    }

    /**
     * The word for the number.
     *
     * @return "done", or the refusal's word
     */
    public final String word() {
        return refusal().map(Refusal::word).orElse("done");
    }

    /**
     * The bytes that a done call filled.
     *
     * @return the bytes, an array of its own at each reading; none of a refused call
     */
    public final byte[] filled() {
        return returned.filled.clone();
    }

    /**
     * What the store tells beside number and extra.
     *
     * @return what it tells
     * @throws IllegalStateException where no store made the call, or one that tells nothing
     */
    public final StoreRecord stored() {
        if (returned.stored == null) {
            throw new IllegalStateException("no store tells of this call: " + this);
        }
        return returned.stored;
    }

    /**
     * Whose line an ask, a clause text or an obstacle of a user was refused for by {@link Refusal#LINE}: the user's
     * own, or under a policy with limits another's.
     *
     * @param user the user who asked
     * @return the user whose line it is
     */
    public final long unsoundUser(long user) {
        return extra() == 0 ? user : extra() - 1;
    }

    /** Throws where the call was refused. */
    final void told(String what) {
        if (!isDone()) {
            throw new NotDoneException(what, this);
        }
    }

    /** A part of what a done call filled. */
    final byte[] part(String what, int from, int to) {
        told(what);
        return Arrays.copyOfRange(returned.filled, from, to);
    }

    @Override
    public final boolean equals(Object other) {
        if (other == null || other.getClass() != getClass()) {
            return false;
        }
        Returned their = ((Answer) other).returned;
        return their.call.equals(returned.call) && their.value == returned.value
            && Arrays.equals(their.filled, returned.filled);
    }

    @Override
    public final int hashCode() {
        return Long.hashCode(returned.value) + 31 * Arrays.hashCode(returned.filled);
    }

    /** The call, and whether it is done or how it was refused. */
    @Override
    public final String toString() {
        String more = extra() == 0 ? "" : " (" + Long.toUnsignedString(extra()) + ")";
        return call() + (isDone() ? ": done" : ": refused: " + number() + " " + word()) + more;
    }

    /** An open. */
    public static final class Opened extends Answer {
        Opened(Returned returned) {
            super(returned);
        }

        /**
         * The session that it took.
         *
         * @return the session, 0 to 7
         * @throws NotDoneException where the call was refused
         */
        public int session() {
            told("session");
            return (int) extra();
        }

        /**
         * The window that a store gave.
         *
         * @return its number, which no other window ever has
         * @throws NotDoneException where the call was refused
         * @throws IllegalStateException where no store made the call
         */
        public long window() {
            told("window");
            return stored().window();
        }
    }

    /** An ask, a short ask, a show or an adopt. */
    public static class Chosen extends Answer {
        Chosen(Returned returned) {
            super(returned);
        }

        /**
         * The session's active roles.
         *
         * @return the roles
         * @throws NotDoneException where the call was refused
         */
        public final RoleSet roles() {
            return RoleSet.ofBytes(part("roles", 0, Limits.ROLES_BYTES));
        }

        /**
         * All that these roles carry.
         *
         * @return the permissions
         * @throws NotDoneException where the call was refused
         */
        public final PermissionSet permissions() {
            return PermissionSet.ofBytes(part("permissions", Limits.ROLES_BYTES, Limits.ANSWER_BYTES));
        }
    }

    /** A window of a store taken over: its new number, and what is active in it. */
    public static final class Adopted extends Chosen {
        Adopted(Returned returned) {
            super(returned);
        }

        /**
         * The window's new number.
         *
         * @return the number
         * @throws NotDoneException where the call was refused
         */
        public long window() {
            told("window");
            return stored().window();
        }
    }

    /** An explain. */
    public static final class Explained extends Answer {
        Explained(Returned returned) {
            super(returned);
        }

        /**
         * The lowest active role that carries the permission.
         *
         * @return the role
         * @throws NotDoneException where the call was refused
         */
        public int role() {
            told("role");
            return (int) (extra() / Limits.MAX_ROLES);
        }

        /**
         * The role at or below it that holds the grant.
         *
         * @return the role
         * @throws NotDoneException where the call was refused
         */
        public int grantingRole() {
            told("granting role");
            return (int) (extra() % Limits.MAX_ROLES);
        }
    }

    /** What stands in the way of an ask; refused by {@link Refusal#NONE} where nothing does. */
    public static final class Obstacle extends Answer {
        Obstacle(Returned returned) {
            super(returned);
        }

        /**
         * What sort of thing stands in the way.
         *
         * @return the kind
         * @throws NotDoneException where the call was refused
         */
        public ObstacleKind kind() {
            told("kind");
            return ObstacleKind.values()[(int) (extra() % 8) - 1];
        }

        /**
         * The first set: the roles that carry the permission; of an exclusion the members that are counted already.
         *
         * @return the roles
         * @throws NotDoneException where the call was refused
         */
        public RoleSet roles() {
            return RoleSet.ofBytes(part("roles", 0, Limits.ROLES_BYTES));
        }

        /**
         * The second set: an exclusion's members.
         *
         * @return the roles; none of another kind
         * @throws NotDoneException where the call was refused
         */
        public RoleSet members() {
            return RoleSet.ofBytes(part("members", Limits.ROLES_BYTES, Limits.OBSTACLE_BYTES));
        }

        /**
         * Of the kinds own, upper and limit: the permission that it is about.
         *
         * @return the permission
         * @throws NotDoneException where the call was refused
         * @throws IllegalStateException of an exclusion, which is about no one permission
         */
        public int permission() {
            of("permission", false);
            return (int) (extra() / 8);
        }

        /**
         * Of the kind exclusion: what it counts.
         *
         * @return the kind of exclusion
         * @throws NotDoneException where the call was refused
         * @throws IllegalStateException of another kind
         */
        public ExclusionKind exclusionKind() {
            of("kind of exclusion", true);
            return ExclusionKind.values()[(int) (extra() / 8 % 4)];
        }

        /**
         * Of the kind exclusion: fewer than n of its members may be counted.
         *
         * @return n
         * @throws NotDoneException where the call was refused
         * @throws IllegalStateException of another kind
         */
        public int n() {
            of("n", true);
            return (int) (extra() / 32);
        }

        private void of(String what, boolean exclusion) {
            if ((kind() == ObstacleKind.EXCLUSION) != exclusion) {
                throw new IllegalStateException("no " + what + ": what stands in the way is of the kind " + kind());
            }
        }
    }

    /** Whom an image would stop. */
    public static final class Stopped extends Answer {
        Stopped(Returned returned) {
            super(returned);
        }

        /**
         * The users whose line is not sound under the image.
         *
         * @return the users
         * @throws NotDoneException where the call was refused
         */
        public UserSet users() {
            return UserSet.ofBytes(part("users", 0, Limits.USERS_BYTES));
        }
    }

    /** A loop of senior words; refused by {@link Refusal#NONE} where there is none. */
    public static final class Looped extends Answer {
        Looped(Returned returned) {
            super(returned);
        }

        /**
         * The roles from the first below the lowest role on a loop down to that role, which stands last.
         *
         * @return the roles
         * @throws NotDoneException where the call was refused
         */
        public List<Integer> chain() {
            byte[] roles = part("chain", 0, (int) extra());
            IntStream chain = IntStream.range(0, roles.length).map(place -> roles[place]);
            return chain.boxed().collect(Collectors.toUnmodifiableList());
        }
    }

    /** A tidy image. */
    public static final class Tidied extends Answer {
        Tidied(Returned returned) {
            super(returned);
        }

        /**
         * The image that all images of the same meaning share.
         *
         * @return the policy with this image
         * @throws NotDoneException where the call was refused
         */
        public Policy policy() {
            told("image");
            return Policy.of(filled());
        }
    }

    /** A grant table: the permissions of each role, after seniority. */
    public static final class Table extends Answer {
        Table(Returned returned) {
            super(returned);
        }

        /**
         * The table's bytes, 32 for each of 64 roles.
         *
         * @return the bytes
         * @throws NotDoneException where the call was refused
         */
        public byte[] table() {
            return part("table", 0, Limits.TABLE_BYTES);
        }

        /**
         * What a role carries.
         *
         * @param role the role, 0 to 63
         * @return the permissions
         * @throws NotDoneException where the call was refused
         * @throws IndexOutOfBoundsException for a role that no table has
         */
        public PermissionSet carriedBy(int role) {
            return PermissionSet.ofBytes(row(this, role, Limits.MAX_ROLES, Limits.SET_BYTES));
        }
    }

    /** A turned grant table: the roles of each permission. */
    public static final class Turned extends Answer {
        Turned(Returned returned) {
            super(returned);
        }

        /**
         * The table's bytes, 8 for each of 256 permissions.
         *
         * @return the bytes
         * @throws NotDoneException where the call was refused
         */
        public byte[] table() {
            return part("table", 0, Limits.TABLE_BYTES);
        }

        /**
         * The roles that carry a permission.
         *
         * @param permission the permission, 0 to 255
         * @return the roles
         * @throws NotDoneException where the call was refused
         * @throws IndexOutOfBoundsException for a permission that no table has
         */
        public RoleSet carrying(int permission) {
            return RoleSet.ofBytes(row(this, permission, Limits.MAX_PERMISSIONS, Limits.ROLES_BYTES));
        }
    }

    private static byte[] row(Answer table, int place, int count, int size) {
        Objects.checkIndex(place, count);
        return table.part("table", size * place, size * (place + 1));
    }

    /** A ledger carried over by widen or narrow. */
    public static final class Carried extends Answer {
        Carried(Returned returned) {
            super(returned);
        }

        /**
         * The new ledger, one of its own at each reading.
         *
         * @return the ledger
         * @throws NotDoneException where the call was refused
         */
        public Ledger ledger() {
            told("ledger");
            return Ledger.of(filled());
        }
    }

    /** An ask as weighted clauses. */
    public static final class Text extends Answer {
        Text(Returned returned) {
            super(returned);
        }

        /**
         * The text, in the DIMACS form.
         *
         * @return the text
         * @throws NotDoneException where the call was refused
         */
        public String text() {
            return new String(part("text", 0, (int) extra()), StandardCharsets.US_ASCII);
        }
    }

    /** A policy change of a store. */
    public static final class Changed extends Answer {
        private final UserSet stopped;

        Changed(Returned returned, UserSet stopped) {
            super(returned);
            this.stopped = stopped;
        }

        /**
         * The new version of the ward's policy.
         *
         * @return the version
         * @throws NotDoneException where the call was refused
         */
        public long version() {
            told("version");
            return extra();
        }

        /**
         * The users whom it stops, or those who are left where windows were closed; told of a refused change too.
         *
         * @return the users
         */
        public UserSet stopped() {
            return stopped;
        }
    }

    /** A verify, a mend or a cut of a store, with what the replay of the journal found. */
    public static final class Verified extends Answer {
        private final Report report;

        Verified(Returned returned, Report report) {
            super(returned);
            this.report = report;
        }

        /**
         * What the replay found; told of a refused call too.
         *
         * @return the report
         */
        public Report report() {
            return report;
        }
    }
}
