package nutrameza;

import java.util.Optional;
import java.util.UUID;

/**
 * The storage failed: the kit was not called or its answer does not count, and nothing may be switched on.
 * {@link #failure} tells what a host does next, docs/STORE.md has a table of it.
 */
public final class StoreException extends RuntimeException {
    private static final long serialVersionUID = 1;

    /** How a storage fails. */
    public enum Failure {
        /** Others hold the lock for too long; nothing changed. */
        BUSY(128),
        /** The storage failed before the commit; nothing changed. */
        FAILED(129),
        /** Connection or disk failed within the commit: repeat with the same token until it is told. */
        UNKNOWN(130),
        /** A row is missing or not as the store wrote it. */
        DAMAGED(137),
        /** There are no tables, or those of another version. */
        SCHEMA(139),
        /** Storage that loses what it was told to keep. */
        UNFIT(140);

        private final int number;

        Failure(int number) {
            this.number = number;
        }

        /**
         * The number that the store has for it.
         *
         * @return the number
         */
        public int number() {
            return number;
        }
    }

    /** Which failure it is. */
    private final Failure failure;
    /** What is told beside it. */
    private final long extra;
    /** The request's token, or null. */
    private final UUID token;

    StoreException(String words, Failure failure, long extra, UUID token) {
        super(words);
        this.failure = failure;
        this.extra = extra;
        this.token = token;
    }

    /** The failure of an answer number; null for a number that is none. */
    static Failure failureOf(int number) {
        for (Failure one : Failure.values()) {
            if (one.number == number) {
                return one;
            }
        }
        return null;
    }

    /**
     * Which failure it is.
     *
     * @return the failure
     */
    public Failure failure() {
        return failure;
    }

    /**
     * What is told beside the failure.
     *
     * @return of {@link Failure#DAMAGED} 1 more than the user whose line it is; of {@link Failure#SCHEMA} the version
     *     of the tables; else 0
     */
    public long extra() {
        return extra;
    }

    /**
     * The request's token, with which it is repeated.
     *
     * @return the token; empty where the call takes none
     */
    public Optional<UUID> token() {
        return Optional.ofNullable(token);
    }
}
