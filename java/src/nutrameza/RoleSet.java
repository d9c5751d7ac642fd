package nutrameza;

import java.util.BitSet;

/** A set of roles, numbers from 0 to 63, which never changes. */
public final class RoleSet extends NumberSet {
    private RoleSet(BitSet bits) {
        super(bits, Limits.ROLES_BYTES);
    }

    /**
     * The set of these numbers.
     *
     * @param numbers the roles
     * @return the set
     * @throws IllegalArgumentException for a number below 0 or above 63
     */
    public static RoleSet of(int... numbers) {
        return new RoleSet(bitsOf(Limits.ROLES_BYTES, numbers));
    }

    /**
     * The set of these bytes: number k is bit k mod 8 of byte k div 8.
     *
     * @param bytes as many as a set has
     * @return the set
     * @throws IllegalArgumentException for another number of bytes
     */
    public static RoleSet ofBytes(byte[] bytes) {
        return new RoleSet(bitsOf(Limits.ROLES_BYTES, bytes));
    }
}
