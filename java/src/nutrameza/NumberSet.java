package nutrameza;

import java.util.BitSet;
import java.util.stream.IntStream;

/** A set of numbers from 0 up, which never changes: what permissions, roles and users have in common. */
public abstract class NumberSet {
    private final BitSet bits;
    private final int room;

    /** A set of numbers below 8 times so many bytes; the bits are this set's own from here on. */
    NumberSet(BitSet bits, int room) {
        if (!bits.isEmpty()) {
            within(bits.length() - 1, room);
        }
        this.bits = bits;
        this.room = room;
    }

    /** The bits of these numbers, which a set of so many bytes has. */
    static BitSet bitsOf(int room, int... numbers) {
        BitSet bits = new BitSet(8 * room);
        for (int number : numbers) {
            within(number, room);
            bits.set(number);
        }
        return bits;
    }

    /** Throws where a set of so many bytes can't have the number. */
    private static void within(int number, int room) {
        if (number < 0 || number >= 8 * room) {
            throw new IllegalArgumentException(number + " is in no such set: 0 to " + (8 * room - 1) + " are");
        }
    }

    /** The bits of a set's bytes, of which there are exactly so many. */
    static BitSet bitsOf(int room, byte[] bytes) {
        if (bytes.length != room) {
            throw new IllegalArgumentException("a set of " + room + " bytes, not of " + bytes.length);
        }
        return BitSet.valueOf(bytes);
    }

    /**
     * Whether a number is in the set.
     *
     * @param number the number
     * @return true if it is; a number that no set has is in none
     */
    public final boolean contains(int number) {
        return number >= 0 && bits.get(number);
    }

    /**
     * How many numbers are in the set.
     *
     * @return how many
     */
    public final int size() {
        return bits.cardinality();
    }

    /**
     * Whether the set has no number.
     *
     * @return true if it has none
     */
    public final boolean isEmpty() {
        return bits.isEmpty();
    }

    /**
     * The numbers in ascending order.
     *
     * @return the numbers
     */
    public final IntStream stream() {
        return bits.stream();
    }

    /**
     * The set as a bit set of its own.
     *
     * @return number k as bit k
     */
    public final BitSet toBitSet() {
        return (BitSet) bits.clone();
    }

    /**
     * The set as the calls have it.
     *
     * @return its bytes: number k is bit k mod 8 of byte k div 8
     */
    public final byte[] toBytes() {
        byte[] bytes = new byte[room];
        byte[] first = bits.toByteArray();
        System.arraycopy(first, 0, bytes, 0, first.length);
        return bytes;
    }

    @Override
    public final boolean equals(Object other) {
        return other != null && other.getClass() == getClass() && ((NumberSet) other).bits.equals(bits);
    }

    @Override
    public final int hashCode() {
        return bits.hashCode();
    }

    @Override
    public final String toString() {
        return bits.toString();
    }
}
