package nutrameza;

import java.util.BitSet;

/** A set of permissions, numbers from 0 to 255, which never changes. */
public final class PermissionSet extends NumberSet {
    private PermissionSet(BitSet bits) {
        super(bits, Limits.SET_BYTES);
    }

    /**
     * The set of these numbers.
     *
     * @param numbers the permissions
     * @return the set
     * @throws IllegalArgumentException for a number below 0 or above 255
     */
    public static PermissionSet of(int... numbers) {
        return new PermissionSet(bitsOf(Limits.SET_BYTES, numbers));
    }

    /**
     * The set of these bits; the bit set stays the caller's.
     *
     * @param bits one of the permissions each
     * @return the set
     * @throws IllegalArgumentException for a bit above 255
     */
    public static PermissionSet of(BitSet bits) {
        return new PermissionSet((BitSet) bits.clone());
    }

    /**
     * The set of these bytes: number k is bit k mod 8 of byte k div 8.
     *
     * @param bytes as many as a set has
     * @return the set
     * @throws IllegalArgumentException for another number of bytes
     */
    public static PermissionSet ofBytes(byte[] bytes) {
        return new PermissionSet(bitsOf(Limits.SET_BYTES, bytes));
    }

    /**
     * The set of all permissions below a number.
     *
     * @param count how many permissions
     * @return the set
     * @throws IllegalArgumentException for a number below 0 or above 256
     */
    public static PermissionSet below(int count) {
        if (count < 0 || count > Limits.MAX_PERMISSIONS) {
            throw new IllegalArgumentException(count + " permissions: a set has 0 to 256");
        }
        BitSet bits = new BitSet();
        bits.set(0, count);
        return new PermissionSet(bits);
    }
}
