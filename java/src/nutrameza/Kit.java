package nutrameza;

import java.nio.ByteBuffer;
import java.nio.ReadOnlyBufferException;

/**
 * The calls as the C header has them: the same names, the parameters in the same order, byte buffers for its buffers. A
 * buffer is what lies between its position and its limit; neither changes. Direct buffers are given to the library as
 * they are, without a copy, heap buffers are copied. A buffer that is only read may be read-only.
 *
 * <p>Every size is the library's to judge, and so is every number, which has 64 bits and no sign. Each call returns its
 * number plus 256 times its extra: {@link #number} and {@link #extra} take them apart, {@link #isDone} tells whether it
 * did what it is for. docs/REFERENCE.md has the calls one by one.
 *
 * <p>Any thread may call. On one ledger the host makes one call at a time, as {@link Ledger} does by itself. A null
 * buffer is a {@link NullPointerException}, a read-only one that the call writes a {@link ReadOnlyBufferException}, and
 * a buffer that is written and shares bytes with another of the call an {@link IllegalArgumentException}.
 */
public final class Kit {
    private static final long[] NO_NUMBERS = {};

    private Kit() {
    }

    /**
     * The version of the kit that this package calls.
     *
     * @return major, minor and patch, as in 1.2.3
     */
    public static String version() {
        return Library.VERSION;
    }

    /**
     * The number of what a call returned.
     *
     * @param returned what it returned
     * @return 0 for a done call, else the refusal's number
     */
    public static int number(long returned) {
        return (int) (returned & 255);
    }

    /**
     * The extra of what a call returned.
     *
     * @param returned what it returned
     * @return the extra, of 56 bits
     */
    public static long extra(long returned) {
        return returned >>> 8;
    }

    /**
     * Whether a call did what it is for.
     *
     * @param returned what it returned
     * @return true if it is done, false if it was refused
     */
    public static boolean isDone(long returned) {
        return number(returned) == 0;
    }

    /** Makes a call; what it fills stands in its buffers. */
    static long made(Call call, long[] numbers, ByteBuffer... buffers) {
        Library.KIT.load();
        Object[] holders = new Object[buffers.length];
        int[] ranges = new int[2 * buffers.length];
        int kinds = 0;
        for (int k = 0; k < buffers.length; k++) {
            boolean written = call.buffers.charAt(k) == 'w';
            ByteBuffer buffer = given(call, k, buffers[k], written);
            int from = buffer.position();
            holders[k] = buffer.isDirect() ? buffer : buffer.array();
            ranges[2 * k] = buffer.isDirect() ? from : buffer.arrayOffset() + from;
            ranges[2 * k + 1] = Math.max(0, buffer.limit() - from);
            kinds |= (written ? 1 << k : 0) | (buffer.isDirect() ? 256 << k : 0);
        }
        return KitNative.call(call.ordinal(), holders, ranges, kinds, numbers);
    }

    /** A buffer as it is given; of a heap buffer whose array may not be seen a copy. */
    private static ByteBuffer given(Call call, int place, ByteBuffer buffer, boolean written) {
        if (buffer == null) {
            throw new NullPointerException(call.words() + ": buffer " + place + " is null");
        }
        if (written && buffer.isReadOnly()) {
            throw new ReadOnlyBufferException();
        }
        if (buffer.isDirect() || buffer.hasArray()) {
            return buffer;
        }
        ByteBuffer seen = buffer.duplicate();
        return ByteBuffer.allocate(seen.remaining()).put(seen).flip();
    }

    /**
     * Judges an image.
     *
     * @param image the policy image
     * @return the number plus 256 times the extra
     */
    public static long check(ByteBuffer image) {
        return made(Call.CHECK, NO_NUMBERS, image);
    }

    /**
     * Shows why an image is refused by 22: a shortest chain of senior words from the lowest role on a loop back to it.
     *
     * @param image the policy image
     * @param chain 64 bytes, filled
     * @return the number plus 256 times the extra
     */
    public static long loop(ByteBuffer image, ByteBuffer chain) {
        return made(Call.LOOP, NO_NUMBERS, image, chain);
    }

    /**
     * Writes the tidy image, which all images of the same meaning share.
     *
     * @param image the policy image
     * @param out filled from its start
     * @return the number plus 256 times the extra
     */
    public static long tidy(ByteBuffer image, ByteBuffer out) {
        return made(Call.TIDY, NO_NUMBERS, image, out);
    }

    /**
     * Fills the closed grant table: what each role carries, after seniority.
     *
     * @param image the policy image
     * @param table 2,048 bytes, filled
     * @return the number plus 256 times the extra
     */
    public static long table(ByteBuffer image, ByteBuffer table) {
        return made(Call.TABLE, NO_NUMBERS, image, table);
    }

    /**
     * Turns a grant table: the roles of each permission.
     *
     * @param source 2,048 bytes
     * @param target 2,048 bytes, filled
     * @return the number plus 256 times the extra
     */
    public static long turn(ByteBuffer source, ByteBuffer target) {
        return made(Call.TURN, NO_NUMBERS, source, target);
    }

    /**
     * Turns a turned grant table back.
     *
     * @param source 2,048 bytes
     * @param target 2,048 bytes, filled
     * @return the number plus 256 times the extra
     */
    public static long unturn(ByteBuffer source, ByteBuffer target) {
        return made(Call.UNTURN, NO_NUMBERS, source, target);
    }

    /**
     * Takes the user's lowest closed session, empty; the extra is that session.
     *
     * @param image the policy image
     * @param ledger the ledger, changed where the call is done
     * @param user the user
     * @return the number plus 256 times the extra
     */
    public static long open(ByteBuffer image, ByteBuffer ledger, long user) {
        return made(Call.OPEN, new long[] {user}, image, ledger);
    }

    /**
     * Ends a session; what was active in it stays in the user's history.
     *
     * @param image the policy image
     * @param ledger the ledger, changed where the call is done
     * @param user the user
     * @param session the session
     * @return the number plus 256 times the extra
     */
    public static long close(ByteBuffer image, ByteBuffer ledger, long user, long session) {
        return made(Call.CLOSE, new long[] {user, session}, image, ledger);
    }

    /**
     * Replaces the session's active roles by the best set between the bounds, and fills the answer.
     *
     * @param image the policy image
     * @param ledger the ledger, changed where the call is done
     * @param user the user
     * @param session the session
     * @param lower the lower bound, 32 bytes
     * @param upper the upper bound, 32 bytes
     * @param permissionAim the aim for permissions: 0 any, 1 fewest, 2 most
     * @param roleAim the aim for roles, likewise
     * @param answer 40 bytes, filled: roles, then permissions
     * @return the number plus 256 times the extra
     */
    public static long ask(ByteBuffer image, ByteBuffer ledger, long user, long session, ByteBuffer lower,
            ByteBuffer upper, long permissionAim, long roleAim, ByteBuffer answer) {
        return made(Call.ASK, new long[] {user, session, permissionAim, roleAim}, image, ledger, lower, upper, answer);
    }

    /**
     * An ask whose aims are both fewest.
     *
     * @param image the policy image
     * @param ledger the ledger, changed where the call is done
     * @param user the user
     * @param session the session
     * @param lower the lower bound, 32 bytes
     * @param upper the upper bound, 32 bytes
     * @param answer 40 bytes, filled: roles, then permissions
     * @return the number plus 256 times the extra
     */
    public static long shortAsk(ByteBuffer image, ByteBuffer ledger, long user, long session, ByteBuffer lower,
            ByteBuffer upper, ByteBuffer answer) {
        return made(Call.SHORT_ASK, new long[] {user, session}, image, ledger, lower, upper, answer);
    }

    /**
     * Fills the answer with the session's active roles and what they carry.
     *
     * @param image the policy image
     * @param ledger the ledger
     * @param user the user
     * @param session the session
     * @param answer 40 bytes, filled: roles, then permissions
     * @return the number plus 256 times the extra
     */
    public static long show(ByteBuffer image, ByteBuffer ledger, long user, long session, ByteBuffer answer) {
        return made(Call.SHOW, new long[] {user, session}, image, ledger, answer);
    }

    /**
     * Says through which roles an open session carries a permission.
     *
     * @param image the policy image
     * @param ledger the ledger
     * @param user the user
     * @param session the session
     * @param permission the permission
     * @return the number plus 256 times the extra
     */
    public static long explain(ByteBuffer image, ByteBuffer ledger, long user, long session, long permission) {
        return made(Call.EXPLAIN, new long[] {user, session, permission}, image, ledger);
    }

    /**
     * Says what stands in the way of an ask with these bounds.
     *
     * @param image the policy image
     * @param ledger the ledger
     * @param user the user
     * @param session the session
     * @param lower the lower bound, 32 bytes
     * @param upper the upper bound, 32 bytes
     * @param roles 16 bytes, filled: two role sets
     * @return the number plus 256 times the extra
     */
    public static long obstacle(ByteBuffer image, ByteBuffer ledger, long user, long session, ByteBuffer lower,
            ByteBuffer upper, ByteBuffer roles) {
        return made(Call.OBSTACLE, new long[] {user, session}, image, ledger, lower, upper, roles);
    }

    /**
     * Tells whom an image would stop: the users whose line of the ledger is not sound under it.
     *
     * @param image the policy image
     * @param ledger the ledger
     * @param users 8 bytes, filled
     * @return the number plus 256 times the extra
     */
    public static long stopped(ByteBuffer image, ByteBuffer ledger, ByteBuffer users) {
        return made(Call.STOPPED, NO_NUMBERS, image, ledger, users);
    }

    /**
     * Carries a ledger of four sessions a user over into one of eight.
     *
     * @param image the policy image
     * @param oldLedger the ledger that is read
     * @param newLedger the ledger that is filled
     * @return the number plus 256 times the extra
     */
    public static long widen(ByteBuffer image, ByteBuffer oldLedger, ByteBuffer newLedger) {
        return made(Call.WIDEN, NO_NUMBERS, image, oldLedger, newLedger);
    }

    /**
     * Carries a ledger of eight sessions a user back into one of four.
     *
     * @param image the policy image
     * @param oldLedger the ledger that is read
     * @param newLedger the ledger that is filled
     * @return the number plus 256 times the extra
     */
    public static long narrow(ByteBuffer image, ByteBuffer oldLedger, ByteBuffer newLedger) {
        return made(Call.NARROW, NO_NUMBERS, image, oldLedger, newLedger);
    }

    /**
     * Writes an ask as weighted clauses for a PMaxSAT program; the extra is the bytes of the text.
     *
     * @param image the policy image
     * @param ledger the ledger
     * @param user the user
     * @param session the session
     * @param lower the lower bound, 32 bytes
     * @param upper the upper bound, 32 bytes
     * @param permissionAim the aim for permissions: 0 any, 1 fewest, 2 most
     * @param roleAim the aim for roles, likewise
     * @param out filled from its start
     * @return the number plus 256 times the extra
     */
    public static long clauses(ByteBuffer image, ByteBuffer ledger, long user, long session, ByteBuffer lower,
            ByteBuffer upper, long permissionAim, long roleAim, ByteBuffer out) {
        return made(Call.CLAUSES, new long[] {user, session, permissionAim, roleAim}, image, ledger, lower, upper, out);
    }
}
