package nutrameza;

/** What an exclusion counts. */
public enum ExclusionKind {
    /** Its members that are active in the session. */
    SS_DMER,
    /** Its members that are active in any open session of the user. */
    MS_DMER,
    /** Its members that were active in the session at any time since it was opened. */
    SS_HMER,
    /** Its members that were active in any session of the user at any time. */
    MS_HMER;

    /**
     * The number that images and answers have for it.
     *
     * @return the number
     */
    public int number() {
        return ordinal();
    }
}
