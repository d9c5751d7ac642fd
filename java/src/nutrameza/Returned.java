package nutrameza;

/** What an answer is made of: the call's name, what it returned, what it filled, and of a store what it told. */
final class Returned {
    private static final byte[] NOTHING = {};

    final String call;
    final long value;
    final byte[] filled;
    final StoreRecord stored;

    /** The bytes filled are kept of a done call alone. */
    Returned(String call, long value, byte[] filled, StoreRecord stored) {
        this.call = call;
        this.value = value;
        this.filled = Kit.isDone(value) ? filled : NOTHING;
        this.stored = stored;
    }

    /** A call of the kit that fills nothing. */
    static Returned of(Call call, long value) {
        return new Returned(call.words(), value, NOTHING, null);
    }

    /** A call of the kit that fills a buffer. */
    static Returned of(Call call, long value, byte[] filled) {
        return new Returned(call.words(), value, filled, null);
    }
}
