package nutrameza;

/** A ward's policy and ledger as they stood at one moment. */
public final class Export {
    private final Policy policy;
    private final Ledger ledger;

    Export(byte[] image, byte[] ledger) {
        this.policy = Policy.of(image);
        this.ledger = Ledger.of(ledger);
    }

    /**
     * The policy.
     *
     * @return the policy
     */
    public Policy policy() {
        return policy;
    }

    /**
     * The ledger, a copy: its calls change nothing in the store.
     *
     * @return the ledger
     */
    public Ledger ledger() {
        return ledger;
    }
}
