package nutrameza;

/** What sort of thing stands in the way of an ask, in the order in which they are tried. */
public enum ObstacleKind {
    /** A permission that no role of the user carries. */
    OWN,
    /** A permission that comes only with roles that carry something outside the upper bound. */
    UPPER,
    /** A permission whose roles are all barred by limits. */
    LIMIT,
    /** An exclusion. */
    EXCLUSION;

    /**
     * The number that answers have for it.
     *
     * @return the number
     */
    public int number() {
        return ordinal() + 1;
    }
}
