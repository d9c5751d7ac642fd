package nutrameza;

/** What a policy change of a store does about those whom the new policy stops. */
public enum GoOn {
    /** It is refused. */
    IF_NONE,
    /** Their windows are closed, and it is refused where that does not free them. */
    CLOSING,
    /** Their windows are closed, and it is put in place even so. */
    REGARDLESS;

    /**
     * The number that the store takes.
     *
     * @return the number
     */
    public int number() {
        return ordinal();
    }
}
