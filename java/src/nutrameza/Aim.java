package nutrameza;

/** An aim of an ask: what is best of the role sets that are admissible. */
public enum Aim {
    /** Any. */
    ANY,
    /** The fewest. */
    FEWEST,
    /** The most. */
    MOST;

    /**
     * The number that the calls take.
     *
     * @return the number
     */
    public int number() {
        return ordinal();
    }
}
