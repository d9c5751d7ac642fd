package nutrameza;

import java.util.BitSet;

/** A set of users, numbers from 0 to 63, which never changes. */
public final class UserSet extends NumberSet {
    UserSet(BitSet bits) {
        super(bits, Limits.USERS_BYTES);
    }

    /**
     * The set of these numbers.
     *
     * @param numbers the users
     * @return the set
     * @throws IllegalArgumentException for a number below 0 or above 63
     */
    public static UserSet of(int... numbers) {
        return new UserSet(bitsOf(Limits.USERS_BYTES, numbers));
    }

    /**
     * The set of these bytes: number k is bit k mod 8 of byte k div 8.
     *
     * @param bytes as many as a set has
     * @return the set
     * @throws IllegalArgumentException for another number of bytes
     */
    public static UserSet ofBytes(byte[] bytes) {
        return new UserSet(bitsOf(Limits.USERS_BYTES, bytes));
    }
}
