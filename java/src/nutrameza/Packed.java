package nutrameza;

import java.nio.ByteBuffer;
import java.nio.ByteOrder;
import java.nio.charset.StandardCharsets;
import java.time.Instant;
import java.time.temporal.ChronoUnit;
import java.util.UUID;

/** What the native side tells, packed by it: numbers of 8 bytes, lowest first; bytes behind their length. */
final class Packed {
    private final ByteBuffer row;

    Packed(byte[] row) {
        this.row = ByteBuffer.wrap(row).order(ByteOrder.LITTLE_ENDIAN);
    }

    long number() {
        return row.getLong();
    }

    /** So many bytes. */
    byte[] bytes(int size) {
        byte[] bytes = new byte[size];
        row.get(bytes);
        return bytes;
    }

    /** Bytes behind their length. */
    byte[] bytes() {
        return bytes(Math.toIntExact(number()));
    }

    String text() {
        return new String(bytes(), StandardCharsets.UTF_8);
    }

    Instant time() {
        return Instant.EPOCH.plus(number(), ChronoUnit.MICROS);
    }

    /** A token behind its length; null where there is none. */
    UUID token() {
        byte[] bytes = bytes();
        return bytes.length == 0 ? null : tokenOf(bytes);
    }

    static UUID tokenOf(byte[] bytes) {
        ByteBuffer token = ByteBuffer.wrap(bytes);
        return new UUID(token.getLong(), token.getLong());
    }

    static byte[] bytesOf(UUID token) {
        ByteBuffer bytes = ByteBuffer.allocate(Store.TOKEN_BYTES);
        return bytes.putLong(token.getMostSignificantBits()).putLong(token.getLeastSignificantBits()).array();
    }
}
