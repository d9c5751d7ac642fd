package nutrameza;

/**
 * Why a call is refused: the register of the kit, 1 to 24, and behind it what the store tells of its own. A storage
 * that fails is no refusal, it is a {@link StoreException}.
 */
public enum Refusal {
    /** Image: byte count not a multiple of 4, below 8 or above 16,384. */
    LENGTH(1, "length"),
    /** Image: first word not a head, a number outside its range, spare bits. */
    HEAD(2, "head"),
    /** Image: a word of a kind that may not stand there. */
    KIND(3, "kind"),
    /** Image: spare bits set. */
    SPARE(4, "spare"),
    /** Image: a number outside its range. */
    RANGE(5, "range"),
    /** Image: a member already in this exclusion; senior equal to junior. */
    REPEAT(6, "repeat"),
    /** Image: a 17th different role for a user; a 33rd exclusion. */
    CROWD(7, "crowd"),
    /** Image: the sum of its words is not balanced. */
    BALANCE(8, "balance"),
    /** Ledger: byte count not that of the policy's users. */
    LEDGER(9, "ledger"),
    /** The policy has no such user. */
    PERSON(10, "person"),
    /** A line of the ledger is not sound. */
    LINE(11, "line"),
    /** There is no such session. */
    SESSION(12, "session"),
    /** The session is not open. */
    CLOSED(13, "closed"),
    /** All eight sessions are open. */
    FULL(14, "full"),
    /** A bound is not of 32 bytes. */
    SET(15, "set"),
    /** The policy has no such permission. */
    PERMISSION(16, "permission"),
    /** The lower bound is not within the upper. */
    BOUNDS(17, "bounds"),
    /** There is no such aim. */
    AIM(18, "aim"),
    /** A buffer is not of the size that the call asks for. */
    ROOM(19, "room"),
    /** No admissible role set; no loop; no active role carries the permission; nothing stands in the way. */
    NONE(20, "none"),
    /** An unreadable line, given by the script program alone. */
    SCRIPT(21, "script"),
    /** Image: senior words lead from a role back to it. */
    LOOP(22, "loop"),
    /** Image: a user may activate more than 16 roles. */
    REACH(23, "reach"),
    /** Ledger to be narrowed: a user has any of the sessions 4 to 7 open. */
    UPPER_SESSIONS(24, "upper sessions"),
    /** Store: there is no such ward; of create: it is there already. */
    WARD(131, "ward not there, or there already"),
    /** Store: the token is recorded for another request. */
    TOKEN(132, "token of another request"),
    /** Store: the window was closed, released or adopted, and its session is another window's. */
    GONE(133, "window gone"),
    /** Store: the token's call was done, but what it gave is no longer in force. */
    OVERTAKEN(134, "overtaken"),
    /** Store: the policy stops users. */
    STOPS(135, "policy stops users"),
    /** Store: the policy has fewer users than the ward has lines. */
    SHRINKS(136, "policy has fewer users"),
    /** Store: a replay of the journal found differences. Of any other call it is a {@link StoreException}. */
    DAMAGED(137, "damaged"),
    /** Store: a verify was ended by its watcher. */
    ENDED(141, "ended"),
    /** A number that this version does not know: {@link Answer#number} has it. */
    OTHER(-1, "unknown");

    private final int number;
    private final String word;

    Refusal(int number, String word) {
        this.number = number;
        this.word = word;
    }

    /**
     * The answer number.
     *
     * @return the number; -1 of {@link #OTHER}
     */
    public int number() {
        return number;
    }

    /**
     * The word for it, of the register or of the store.
     *
     * @return the word
     */
    public String word() {
        return word;
    }

    /**
     * The refusal of an answer number.
     *
     * @param number the number of a refused call
     * @return the refusal; {@link #OTHER} for a number that this version does not know
     * @throws IllegalArgumentException for 0, which refuses nothing
     */
    public static Refusal of(int number) {
        if (number == 0) {
            throw new IllegalArgumentException("0 is the number of a done call");
        }
        for (Refusal one : values()) {
            if (one.number == number) {
                return one;
            }
        }
        return OTHER;
    }
}
