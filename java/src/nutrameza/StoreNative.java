package nutrameza;

/**
 * The native side of the store. Texts are UTF-8 with a zero behind them. A handle is given to one thread at a time and
 * to no call after disconnect: {@link Handles} sees to it.
 */
final class StoreNative {
    /** Calls of {@link #request}. */
    static final int OPEN = 0;
    static final int CLOSE = 1;
    static final int ADOPT = 2;
    static final int ASK = 3;
    static final int SHORT_ASK = 4;
    static final int SHOW = 5;
    static final int EXPLAIN = 6;
    static final int OBSTACLE = 7;
    /** Calls of {@link #list}. */
    static final int WARDS = 0;
    static final int SESSIONS = 1;
    static final int POLICIES = 2;
    static final int JOURNAL = 3;
    static final int JOURNAL_FROM = 4;
    static final int ADOPT_ALL = 5;
    /** Calls of {@link #replay}. */
    static final int VERIFY = 0;
    static final int VERIFY_WATCHED = 1;
    static final int MEND = 2;
    static final int CUT = 3;

    private StoreNative() {
    }

    static native int version();

    /** Connects; the handle, or 0 where there is no memory for one, stands in the array. */
    static native long connect(byte[] name, byte[] host, long[] handle);

    static native void disconnect(long handle);

    /** The engine's words for the last failure of a handle. */
    static native byte[] error(long handle);

    static native byte[] wordOf(int number);

    static native long make(long handle);

    static native long create(long handle, byte[] ward, byte[] image, byte[] ledger);

    /** A call with a reply. Numbers: user, window, and two of the call's own; bounds and token may be null. */
    static native long request(int call, long handle, byte[] ward, long[] numbers, byte[] bounds, byte[] token,
            byte[] reply);

    /** A list; of an exception that rows throws the rest is left out, and it is thrown. */
    static native long list(int call, long handle, byte[] ward, byte[] host, long[] numbers, Rows rows);

    static native long release(long handle, byte[] ward, byte[] host);

    static native long policy(long handle, byte[] ward, byte[] image, int goOn, long[] stopped);

    /** Verify, mend or cut; the report is filled. Rows are told the steps (0) and findings (1) of a watched verify. */
    static native long replay(int call, long handle, byte[] ward, long number, Rows rows, byte[][] report);

    /** Image and ledger, as the two elements. */
    static native long export(long handle, byte[] ward, byte[][] out);
}
