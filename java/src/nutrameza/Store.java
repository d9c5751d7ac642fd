package nutrameza;

import java.nio.ByteBuffer;
import java.nio.CharBuffer;
import java.nio.charset.CharacterCodingException;
import java.nio.charset.StandardCharsets;
import java.util.ArrayList;
import java.util.Arrays;
import java.util.BitSet;
import java.util.List;
import java.util.Objects;
import java.util.UUID;
import java.util.function.Function;

/**
 * The store: wards (a policy and its ledger) in SQLite or PostgreSQL, one call of the kit as one transaction. Of a call
 * that is answered the answer is on disk. docs/STORE.md says how a host uses it.
 *
 * <pre>{@code
 * try (Store store = Store.connect("sqlite:ward.db", "desk-7-2026-11-17")) {
 *     store.make();
 *     store.create("ward 3", policy);
 *     long window = store.open("ward 3", 0).window();
 *     Answer.Chosen answer = store.shortAsk("ward 3", 0, window, PermissionSet.of(1), PermissionSet.below(5));
 * }
 * }</pre>
 *
 * <p>A refusal, the kit's or the store's, is told in the answer; a storage that fails throws {@link StoreException},
 * and so does a connection that can't be made. A name that is none is an {@link IllegalArgumentException}, a call of a
 * closed store an {@link IllegalStateException}. What a list can't tell throws {@link NotDoneException}.
 *
 * <p>Any number of threads may call. Each call has a connection for itself while it runs; connections are made as they
 * are needed, up to the most that the store was given, and kept until it is closed.
 */
public final class Store implements AutoCloseable {
    /** The most connections of a store that is given no number. */
    public static final int HANDLES = 16;
    /** The bytes of a token. */
    static final int TOKEN_BYTES = 16;
    /** What connecting returns where there are no tables yet. */
    static final long NO_TABLES = StoreException.Failure.SCHEMA.number();
    /** A handle or a name that can't be used. */
    private static final int USAGE = 138;
    /** Window, order, version, whether again, answer, the two sets of an obstacle, token. */
    private static final int REPLY_BYTES = 4 * 8 + Limits.ANSWER_BYTES + Limits.OBSTACLE_BYTES + TOKEN_BYTES;

    private final Handles handles;
    private final String host;

    private Store(String name, String host, int handles) {
        if (handles < 1) {
            throw new IllegalArgumentException("a store with " + handles + " handles");
        }
        byte[] storage = text("the store's name", name);
        byte[] own = text("host", host);
        Library.STORE.load();
        this.host = host;
        this.handles = new Handles(storage, own, handles);
    }

    /**
     * Connects, under a name for this run of this program that no other has.
     *
     * @param name "sqlite:PATH" or "postgresql://.."
     * @return the store
     * @throws StoreException where it can't be connected
     */
    public static Store connect(String name) {
        return connect(name, "java-" + ProcessHandle.current().pid() + "-" + UUID.randomUUID());
    }

    /**
     * Connects.
     *
     * @param name "sqlite:PATH" or "postgresql://.."
     * @param host names this run of this program, at most 63 bytes, and is never used again by another
     * @return the store
     * @throws StoreException where it can't be connected
     */
    public static Store connect(String name, String host) {
        return connect(name, host, HANDLES);
    }

    /**
     * Connects.
     *
     * @param name "sqlite:PATH" or "postgresql://.."
     * @param host names this run of this program, at most 63 bytes, and is never used again by another
     * @param handles the most connections, 1 or more
     * @return the store
     * @throws StoreException where it can't be connected
     */
    public static Store connect(String name, String host, int handles) {
        return new Store(name, host, handles);
    }

    /**
     * The name of this run of this program.
     *
     * @return the name
     */
    public String host() {
        return host;
    }

    /**
     * Whether the database has tables. Where it has none, make is the one call that the store takes.
     *
     * @return true if it has
     */
    public boolean hasTables() {
        return handles.hasTables();
    }

    /**
     * Gives the connections back, once the calls that are under way have ended; a second time nothing happens. A call
     * made afterwards throws IllegalStateException.
     */
    @Override
    public void close() {
        handles.close();
    }

    // ---- wards ----

    /** Makes the tables where there are none. */
    public void make() {
        handles.make(handle -> {
            thrown("make", StoreNative.make(handle), handle, null);
            return null;
        });
    }

    /**
     * A ward under a policy, with a zero ledger.
     *
     * @param ward its name, 1 to 63 bytes
     * @param policy the policy
     * @return done; refused by {@link Refusal#WARD} where it is there already
     */
    public Answer create(String ward, Policy policy) {
        return created(ward, policy, null);
    }

    /**
     * A ward under a policy, with a ledger of 80 (which is widened) or 144 bytes a user.
     *
     * @param ward its name, 1 to 63 bytes
     * @param policy the policy
     * @param ledger the ledger's bytes
     * @return done; refused by {@link Refusal#WARD} where it is there already
     */
    public Answer create(String ward, Policy policy, byte[] ledger) {
        return created(ward, policy, Objects.requireNonNull(ledger, "ledger").clone());
    }

    private Answer created(String ward, Policy policy, byte[] ledger) {
        byte[] name = text("ward", ward);
        byte[] image = policy.bytes();
        return called("create", handle -> StoreNative.create(handle, name, image, ledger), Answer::new);
    }

    /**
     * The wards by name.
     *
     * @return the wards
     */
    public List<Ward> wards() {
        return listed("wards", StoreNative.WARDS, null, null, Ward::new);
    }

    /**
     * A ward's policy and ledger as they stand at one moment.
     *
     * @param ward the ward
     * @return policy and ledger
     */
    public Export export(String ward) {
        byte[] name = text("ward", ward);
        byte[][] out = new byte[2][];
        called("export", handle -> StoreNative.export(handle, name, out), Answer::new).told("export");
        return new Export(out[0], out[1]);
    }

    // ---- the calls ----

    /**
     * Opens a window for a user.
     *
     * @param ward the ward
     * @param user the user
     * @return the window
     */
    public Answer.Opened open(String ward, long user) {
        return new Request("open", StoreNative.OPEN, ward, user, 0).opened();
    }

    /**
     * Opens a window for a user; the same token tells the same window again.
     *
     * @param ward the ward
     * @param user the user
     * @param token new for each request, the same for its repetition
     * @return the window
     */
    public Answer.Opened open(String ward, long user, UUID token) {
        return new Request("open", StoreNative.OPEN, ward, user, 0).token(token).opened();
    }

    /**
     * Ends a window.
     *
     * @param ward the ward
     * @param user the user
     * @param window the window
     * @return done, or why it is refused
     */
    public Answer close(String ward, long user, long window) {
        return new Request("close", StoreNative.CLOSE, ward, user, window).plain();
    }

    /**
     * Ends a window.
     *
     * @param ward the ward
     * @param user the user
     * @param window the window
     * @param token new for each request, the same for its repetition
     * @return done, or why it is refused
     */
    public Answer close(String ward, long user, long window, UUID token) {
        return new Request("close", StoreNative.CLOSE, ward, user, window).token(token).plain();
    }

    /**
     * Asks for roles by two aims.
     *
     * @param ward the ward
     * @param user the user
     * @param window the window
     * @param lower what is needed
     * @param upper what is allowed
     * @param permissionAim the aim for permissions
     * @param roleAim the aim for roles, among sets that are alike by the first
     * @return the roles, or why there are none
     */
    public Answer.Chosen ask(String ward, long user, long window, PermissionSet lower, PermissionSet upper,
            Aim permissionAim, Aim roleAim) {
        return asked(ward, user, window).bounds(lower, upper).aims(permissionAim, roleAim).chosen();
    }

    /**
     * Asks for roles by two aims.
     *
     * @param ward the ward
     * @param user the user
     * @param window the window
     * @param lower what is needed
     * @param upper what is allowed
     * @param permissionAim the aim for permissions
     * @param roleAim the aim for roles, among sets that are alike by the first
     * @param token new for each request, the same for its repetition
     * @return the roles, or why there are none
     */
    public Answer.Chosen ask(String ward, long user, long window, PermissionSet lower, PermissionSet upper,
            Aim permissionAim, Aim roleAim, UUID token) {
        return asked(ward, user, window).bounds(lower, upper).aims(permissionAim, roleAim).token(token).chosen();
    }

    private Request asked(String ward, long user, long window) {
        return new Request("ask", StoreNative.ASK, ward, user, window);
    }

    /**
     * Asks for the fewest permissions, then the fewest roles.
     *
     * @param ward the ward
     * @param user the user
     * @param window the window
     * @param lower what is needed
     * @param upper what is allowed
     * @return the roles, or why there are none
     */
    public Answer.Chosen shortAsk(String ward, long user, long window, PermissionSet lower, PermissionSet upper) {
        return new Request("short ask", StoreNative.SHORT_ASK, ward, user, window).bounds(lower, upper).chosen();
    }

    /**
     * Asks for the fewest permissions, then the fewest roles.
     *
     * @param ward the ward
     * @param user the user
     * @param window the window
     * @param lower what is needed
     * @param upper what is allowed
     * @param token new for each request, the same for its repetition
     * @return the roles, or why there are none
     */
    public Answer.Chosen shortAsk(String ward, long user, long window, PermissionSet lower, PermissionSet upper,
            UUID token) {
        Request request = new Request("short ask", StoreNative.SHORT_ASK, ward, user, window);
        return request.bounds(lower, upper).token(token).chosen();
    }

    /**
     * Takes a window over for this host, under a new number; whoever has the old one is told {@link Refusal#GONE}.
     *
     * @param ward the ward
     * @param user the user
     * @param window the window
     * @return the new number, and what is active
     */
    public Answer.Adopted adopt(String ward, long user, long window) {
        return new Request("adopt", StoreNative.ADOPT, ward, user, window).adopted();
    }

    /**
     * Takes a window over for this host, under a new number.
     *
     * @param ward the ward
     * @param user the user
     * @param window the window
     * @param token new for each request, the same for its repetition
     * @return the new number, and what is active
     */
    public Answer.Adopted adopt(String ward, long user, long window, UUID token) {
        return new Request("adopt", StoreNative.ADOPT, ward, user, window).token(token).adopted();
    }

    /**
     * What is active in a window.
     *
     * @param ward the ward
     * @param user the user
     * @param window the window
     * @return the roles and what they carry
     */
    public Answer.Chosen show(String ward, long user, long window) {
        return new Request("show", StoreNative.SHOW, ward, user, window).chosen();
    }

    /**
     * Through which roles a window carries a permission.
     *
     * @param ward the ward
     * @param user the user
     * @param window the window
     * @param permission the permission
     * @return the roles; refused by {@link Refusal#NONE} where it does not carry it
     */
    public Answer.Explained explain(String ward, long user, long window, long permission) {
        return new Request("explain", StoreNative.EXPLAIN, ward, user, window).explained(permission);
    }

    /**
     * What stands in the way of an ask with these bounds.
     *
     * @param ward the ward
     * @param user the user
     * @param window the window
     * @param lower what is needed
     * @param upper what is allowed
     * @return what stands in the way; refused by {@link Refusal#NONE} where nothing does
     */
    public Answer.Obstacle obstacle(String ward, long user, long window, PermissionSet lower, PermissionSet upper) {
        return new Request("obstacle", StoreNative.OBSTACLE, ward, user, window).bounds(lower, upper).obstacle();
    }

    // ---- windows and hosts ----

    /**
     * A ward's open windows by user.
     *
     * @param ward the ward
     * @return the windows
     */
    public List<Window> sessions(String ward) {
        return listed("sessions", StoreNative.SESSIONS, text("ward", ward), null, Window::new);
    }

    /**
     * Closes the windows of a host that died.
     *
     * @param ward the ward
     * @param deadHost the host
     * @return done; the extra is how many
     */
    public Answer release(String ward, String deadHost) {
        byte[] name = text("ward", ward);
        byte[] dead = text("host", deadHost);
        return called("release", handle -> StoreNative.release(handle, name, dead), Answer::new);
    }

    /**
     * Takes over the windows of a host that died; each gets a new number.
     *
     * @param ward the ward
     * @param deadHost the host
     * @return the windows
     */
    public List<Window> adoptAll(String ward, String deadHost) {
        return listed("adopt all", StoreNative.ADOPT_ALL, text("ward", ward), text("host", deadHost), Window::new);
    }

    // ---- policies and the journal ----

    /**
     * A new policy between two calls of everybody.
     *
     * @param ward the ward
     * @param policy the policy
     * @param goOn what is done about those whom it stops
     * @return the new version, and whom it stops; refused by {@link Refusal#STOPS} or {@link Refusal#SHRINKS}
     */
    public Answer.Changed policy(String ward, Policy policy, GoOn goOn) {
        byte[] name = text("ward", ward);
        byte[] image = policy.bytes();
        int choice = goOn.number();
        long[] stopped = new long[1];
        return called("policy", handle -> StoreNative.policy(handle, name, image, choice, stopped),
            returned -> new Answer.Changed(returned, new UserSet(BitSet.valueOf(stopped))));
    }

    /**
     * The policies that a ward has and had, by version.
     *
     * @param ward the ward
     * @return the policies
     */
    public List<PolicyVersion> policies(String ward) {
        return listed("policies", StoreNative.POLICIES, text("ward", ward), null, PolicyVersion::new);
    }

    /**
     * A ward's journal by user and order.
     *
     * @param ward the ward
     * @return all entries
     */
    public List<JournalEntry> journal(String ward) {
        return listed("journal", StoreNative.JOURNAL, text("ward", ward), null, JournalEntry::new);
    }

    /**
     * A part of a ward's journal, for one that is too long to be read at once.
     *
     * @param ward the ward
     * @param user the user of the first entry
     * @param order the order number of the first entry
     * @param most at most so many
     * @return the entries from this one on
     */
    public List<JournalEntry> journalFrom(String ward, long user, long order, long most) {
        byte[] name = text("ward", ward);
        return listed("journal from", StoreNative.JOURNAL_FROM, name, null, JournalEntry::new, user, order, most);
    }

    /**
     * Replays a ward's journal through the kit and compares every answer, line and open window. Locks nothing.
     *
     * @param ward the ward
     * @return done; refused by {@link Refusal#DAMAGED} for differences, the extra is how many
     */
    public Answer.Verified verify(String ward) {
        return replayed("verify", StoreNative.VERIFY, ward, 0, null);
    }

    /**
     * Replays a ward's journal, followed by a watcher.
     *
     * @param ward the ward
     * @param watcher who is told what is found, and may end it
     * @return done; refused by {@link Refusal#DAMAGED} for differences, by {@link Refusal#ENDED} where it was ended
     */
    public Answer.Verified verify(String ward, Watcher watcher) {
        Objects.requireNonNull(watcher, "watcher");
        return replayed("verify", StoreNative.VERIFY_WATCHED, ward, 0, packed -> {
            Packed row = new Packed(packed);
            if (row.number() == 0) {
                return watcher.step(new Report(row)) ? 0 : 1;
            }
            watcher.found(new Finding(row));
            return 0;
        });
    }

    /**
     * Writes a damaged line anew from the replay of the journal, as an entry of its own.
     *
     * @param ward the ward
     * @param user the user whose line it is
     * @return done, the extra is 1 if it was damaged; refused by {@link Refusal#DAMAGED} if the journal does not replay
     */
    public Answer.Verified mend(String ward, long user) {
        return replayed("mend", StoreNative.MEND, ward, user, null);
    }

    /**
     * Cuts a ward's journal at a verified moment: older entries give way to one for each user. Their tokens are
     * forgotten, so no request is repeated after that time.
     *
     * @param ward the ward
     * @param seconds how old entries may be
     * @return done, the extra is how many entries went; refused by {@link Refusal#DAMAGED} for differences
     */
    public Answer.Verified cut(String ward, long seconds) {
        return replayed("cut", StoreNative.CUT, ward, seconds, null);
    }

    // ---- how calls are made ----

    /** Throws where the storage failed, or something was used that is none; else what a call returned is an answer. */
    static void thrown(String call, long returned, long handle, UUID token) {
        int number = Kit.number(returned);
        StoreException.Failure failure = StoreException.failureOf(number);
        if (failure == null && number != USAGE) {
            return;
        }
        String engine = utf8(StoreNative.error(handle));
        String words = call + ": " + utf8(StoreNative.wordOf(number)) + (engine.isEmpty() ? "" : ": " + engine);
        if (failure == null) {
            throw new IllegalArgumentException(words);
        }
        throw new StoreException(words, failure, Kit.extra(returned), token);
    }

    /** A call of the native side. */
    private interface Native {
        long on(long handle);
    }

    /** A call that has no reply. */
    private <T> T called(String call, Native made, Function<Returned, T> answer) {
        return handles.call(false, handle -> {
            long returned = made.on(handle);
            thrown(call, returned, handle, null);
            return answer.apply(new Returned(call, returned, new byte[0], null));
        });
    }

    private <T> List<T> listed(String call, int which, byte[] ward, byte[] host, Function<Packed, T> made,
            long... numbers) {
        List<T> found = new ArrayList<>();
        long[] given = Arrays.copyOf(numbers, 3);
        Rows rows = packed -> {
            found.add(made.apply(new Packed(packed)));
            return 0;
        };
        called(call, handle -> StoreNative.list(which, handle, ward, host, given, rows), Answer::new).told("list");
        return found;
    }

    /** Verify, mend or cut: differences are told in the answer. */
    private Answer.Verified replayed(String call, int which, String ward, long number, Rows rows) {
        byte[] name = text("ward", ward);
        byte[][] report = new byte[1][];
        return handles.call(false, handle -> {
            long returned = StoreNative.replay(which, handle, name, number, rows, report);
            if (Kit.number(returned) != Refusal.DAMAGED.number()) {
                thrown(call, returned, handle, null);
            }
            Report found = new Report(new Packed(report[0]));
            return new Answer.Verified(new Returned(call, returned, new byte[0], null), found);
        });
    }

    /** A name as C takes it: UTF-8 with a zero behind it. */
    private static byte[] text(String what, String value) {
        Objects.requireNonNull(value, what);
        if (value.indexOf('\0') >= 0) {
            throw new IllegalArgumentException(what + " has a zero character");
        }
        try {
            ByteBuffer bytes = StandardCharsets.UTF_8.newEncoder().encode(CharBuffer.wrap(value));
            byte[] ended = new byte[bytes.remaining() + 1];
            bytes.get(ended, 0, ended.length - 1);
            return ended;
        } catch (CharacterCodingException wrong) {
            throw new IllegalArgumentException(what + " has half of a surrogate pair", wrong);
        }
    }

    private static String utf8(byte[] bytes) {
        return new String(bytes, StandardCharsets.UTF_8);
    }

    /** A request of a user: what it is about, and how its answer is made. */
    private final class Request {
        private final String call;
        private final int which;
        private final byte[] ward;
        private final long[] numbers;
        private byte[] bounds;
        private byte[] token;

        Request(String call, int which, String ward, long user, long window) {
            this.call = call;
            this.which = which;
            this.ward = text("ward", ward);
            this.numbers = new long[] {user, window, 0, 0};
        }

        Request token(UUID given) {
            token = Packed.bytesOf(given);
            return this;
        }

        Request bounds(PermissionSet lower, PermissionSet upper) {
            bounds = ByteBuffer.allocate(2 * Limits.SET_BYTES).put(lower.toBytes()).put(upper.toBytes()).array();
            return this;
        }

        Request aims(Aim permissionAim, Aim roleAim) {
            numbers[2] = permissionAim.number();
            numbers[3] = roleAim.number();
            return this;
        }

        Answer plain() {
            return made(0, 0, Answer::new);
        }

        Answer.Opened opened() {
            return made(0, 0, Answer.Opened::new);
        }

        Answer.Chosen chosen() {
            return made(0, Limits.ANSWER_BYTES, Answer.Chosen::new);
        }

        Answer.Adopted adopted() {
            return made(0, Limits.ANSWER_BYTES, Answer.Adopted::new);
        }

        Answer.Explained explained(long permission) {
            numbers[2] = permission;
            return made(0, 0, Answer.Explained::new);
        }

        Answer.Obstacle obstacle() {
            return made(Limits.ANSWER_BYTES, Limits.OBSTACLE_BYTES, Answer.Obstacle::new);
        }

        /** Makes the call; its answer has so many bytes from there on of what was filled: answer, then obstacle. */
        private <T> T made(int from, int size, Function<Returned, T> answer) {
            return handles.call(false, handle -> {
                byte[] reply = new byte[REPLY_BYTES];
                long returned = StoreNative.request(which, handle, ward, numbers, bounds, token, reply);
                Packed row = new Packed(reply);
                long[] told = {row.number(), row.number(), row.number(), row.number()};
                byte[] filled = row.bytes(Limits.ANSWER_BYTES + Limits.OBSTACLE_BYTES);
                UUID used = Packed.tokenOf(row.bytes(TOKEN_BYTES));
                thrown(call, returned, handle, which < StoreNative.SHOW ? used : null);
                StoreRecord record = new StoreRecord(told[0], told[1], told[2], told[3] != 0, used);
                byte[] part = Arrays.copyOfRange(filled, from, from + size);
                return answer.apply(new Returned(call, returned, part, record));
            });
        }
    }
}
