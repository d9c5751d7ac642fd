package nutrameza;

/** Who is told rows by the native side, one by one, within a call. */
interface Rows {
    /**
     * A row.
     *
     * @param packed the row
     * @return 0 to go on; anything else ends a verify
     */
    int row(byte[] packed);
}
