package nutrameza;

/** The header's numbers: limits of a policy and sizes of buffers. */
public final class Limits {
    /** The most users of a policy. */
    public static final int MAX_USERS = 64;
    /** The most roles of a policy. */
    public static final int MAX_ROLES = 64;
    /** The most permissions of a policy. */
    public static final int MAX_PERMISSIONS = 256;
    /** The most words of an image. */
    public static final int MAX_WORDS = 4096;
    /** The bytes of a word of an image. */
    public static final int WORD_BYTES = 4;
    /** The most bytes of an image. */
    public static final int MAX_IMAGE_BYTES = 16384;
    /** The most exclusions of a policy. */
    public static final int MAX_EXCLUSIONS = 32;
    /** The most roles that a user may activate. */
    public static final int MAX_USER_ROLES = 16;
    /** The highest limit on how many sessions hold a role. */
    public static final int MAX_LIMIT = 256;
    /** The sessions of a user, numbered from 0. */
    public static final int SESSIONS = 8;
    /** The bytes of a user's line of a ledger. */
    public static final int LINE_BYTES = 144;
    /** The bytes of a permission set. */
    public static final int SET_BYTES = 32;
    /** The bytes of a role set. */
    public static final int ROLES_BYTES = 8;
    /** The bytes that an ask or a show fills: roles, then permissions. */
    public static final int ANSWER_BYTES = 40;
    /** The bytes that an obstacle fills: two role sets. */
    public static final int OBSTACLE_BYTES = 16;
    /** The bytes of a set of users. */
    public static final int USERS_BYTES = 8;
    /** The sessions of a user in ledgers of the versions 0.1 to 0.5. */
    public static final int OLD_SESSIONS = 4;
    /** The bytes of a line in ledgers of the versions 0.1 to 0.5. */
    public static final int OLD_LINE_BYTES = 80;
    /** The bytes of a chain of roles. */
    public static final int CHAIN_BYTES = 64;
    /** The bytes of a grant table. */
    public static final int TABLE_BYTES = 2048;
    /** No clause text has more bytes. */
    public static final int MAX_CLAUSES_BYTES = 8388608;

    private Limits() {
    }
}
