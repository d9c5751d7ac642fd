package nutrameza;

import java.util.Locale;

/**
 * The calls, in the header's order, with their parameters: r a buffer that is read, w one that is written, n a number.
 */
enum Call {
    CHECK("r"),
    LOOP("rw"),
    TIDY("rw"),
    TABLE("rw"),
    TURN("rw"),
    UNTURN("rw"),
    OPEN("rwn"),
    CLOSE("rwnn"),
    ASK("rwnnrrnnw"),
    SHORT_ASK("rwnnrrw"),
    SHOW("rrnnw"),
    EXPLAIN("rrnnn"),
    OBSTACLE("rrnnrrw"),
    STOPPED("rrw"),
    WIDEN("rrw"),
    NARROW("rrw"),
    CLAUSES("rrnnrrnnw");

    final String parameters;
    /** The buffers among the parameters. */
    final String buffers;

    Call(String parameters) {
        this.parameters = parameters;
        this.buffers = parameters.replace("n", "");
    }

    /** The name in words. */
    String words() {
        return name().toLowerCase(Locale.ROOT).replace('_', ' ');
    }
}
