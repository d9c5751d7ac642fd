package nutrameza;

/** A ward of a store, and the version of its policy. */
public final class Ward {
    private final String name;
    private final long version;

    /** Read from a row of the store. */
    Ward(Packed row) {
        name = row.text();
        version = row.number();
    }

    /**
     * The ward's name.
     *
     * @return the name
     */
    public String name() {
        return name;
    }

    /**
     * The version of its policy.
     *
     * @return the version, from 1 up
     */
    public long version() {
        return version;
    }

    @Override
    public String toString() {
        return name + ", version " + version;
    }
}
