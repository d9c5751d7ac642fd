package nutrameza;

import java.time.Instant;
import java.util.Optional;
import java.util.UUID;

/** An entry of a ward's journal. */
public final class JournalEntry {
    private final long user;
    private final long order;
    private final long version;
    private final long window;
    private final long returned;
    private final long turn;
    private final String call;
    private final String host;
    private final Instant at;
    private final UUID token;
    private final byte[] arguments;
    private final byte[] answer;

    /** Read from a row of the store. */
    JournalEntry(Packed row) {
        user = row.number();
        order = row.number();
        version = row.number();
        window = row.number();
        returned = row.number();
        turn = row.number();
        call = row.text();
        host = row.text();
        at = row.time();
        token = row.token();
        arguments = row.bytes();
        answer = row.bytes();
    }

    /**
     * The user.
     *
     * @return the user's number
     */
    public long user() {
        return user;
    }

    /**
     * The call's number among the user's.
     *
     * @return the number
     */
    public long order() {
        return order;
    }

    /**
     * The version of the policy that it was made under.
     *
     * @return the version
     */
    public long version() {
        return version;
    }

    /**
     * The window that it was about.
     *
     * @return the number; 0 of an open
     */
    public long window() {
        return window;
    }

    /**
     * What the call returned.
     *
     * @return its number plus 256 times its extra
     */
    public long returned() {
        return returned;
    }

    /**
     * The call's number among all of the ward's under limits.
     *
     * @return the number, else 0
     */
    public long turn() {
        return turn;
    }

    /**
     * The call's name in words.
     *
     * @return the name, as in "short ask"
     */
    public String call() {
        return call;
    }

    /**
     * The host that made it.
     *
     * @return the host's name
     */
    public String host() {
        return host;
    }

    /**
     * When it was made, by the clock of the database.
     *
     * @return the time
     */
    public Instant at() {
        return at;
    }

    /**
     * The request's token.
     *
     * @return the token; empty where there is none
     */
    public Optional<UUID> token() {
        return Optional.ofNullable(token);
    }

    /**
     * The bounds and the aims of an ask, 8 bytes each aim; a line and its windows where one was imported or mended.
     *
     * @return the bytes
     */
    public byte[] arguments() {
        return arguments.clone();
    }

    /**
     * What the call filled.
     *
     * @return the bytes; none where it filled nothing
     */
    public byte[] answer() {
        return answer.clone();
    }

    @Override
    public String toString() {
        return user + " " + order + " " + call + ": " + Kit.number(returned);
    }
}
