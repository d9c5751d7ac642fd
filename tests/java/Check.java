package nutrameza.tests;

import java.util.Arrays;
import java.util.Objects;

/** What a test sees, compared with what it should be. */
public final class Check {
    private Check() {
    }

    /** Code that may throw. */
    public interface Code {
        void run() throws Exception;
    }

    public static void that(boolean holds, Object seen) {
        if (!holds) {
            throw new AssertionError(seen);
        }
    }

    public static void same(Object expected, Object seen) {
        if (!Objects.deepEquals(expected, seen)) {
            throw new AssertionError("expected " + shown(expected) + ", seen " + shown(seen));
        }
    }

    private static String shown(Object what) {
        return what instanceof byte[] ? Arrays.toString((byte[]) what) : String.valueOf(what);
    }

    /** What the code throws, which is of this class and no other. */
    public static <T extends Throwable> T thrown(Class<T> kind, Code code) {
        try {
            code.run();
        } catch (Throwable seen) {
            if (seen.getClass() == kind) {
                return kind.cast(seen);
            }
            throw new AssertionError("expected " + kind + ", seen " + seen, seen);
        }
        throw new AssertionError("expected " + kind + ", and nothing was thrown");
    }
}
