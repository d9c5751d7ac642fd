package nutrameza;

/** The native side of the kit's calls. */
final class KitNative {
    private KitNative() {
    }

    /** The version of the library: 1.2.3 is 1002003. */
    static native int version();

    /**
     * Makes a call.
     *
     * @param call its place in {@link Call}
     * @param buffers a byte array or a direct byte buffer for each buffer
     * @param ranges for each buffer where it begins and how many bytes it has
     * @param kinds bit k: buffer k is written; bit 8 + k: it is a direct byte buffer
     * @param numbers the numbers
     * @return what the call returns
     */
    static native long call(int call, Object[] buffers, int[] ranges, int kinds, long[] numbers);
}
