package nutrameza;

import java.io.IOException;
import java.nio.ByteBuffer;
import java.nio.ByteOrder;
import java.nio.file.Files;
import java.nio.file.Path;
import java.util.Arrays;

/**
 * A policy: a hospital's roles and rules as an image, which never changes. Any bytes may be one: the library judges
 * them at every call, and {@link #check} tells what it says. Any thread may use it.
 */
public final class Policy {
    /** Read alone, from here and by the calls; direct of an array, so that no call copies it. */
    private final ByteBuffer image;

    private Policy(ByteBuffer image) {
        this.image = image;
    }

    /**
     * The policy of an image; the array stays the caller's.
     *
     * @param image the bytes of an image
     * @return the policy
     */
    public static Policy of(byte[] image) {
        return new Policy(Ledger.direct(image));
    }

    /**
     * The policy of an image without a copy: what lies between the buffer's position and limit, which the host changes
     * no more.
     *
     * @param image the bytes of an image; a direct buffer is given to the library as it is
     * @return the policy
     */
    public static Policy over(ByteBuffer image) {
        return new Policy(image.slice());
    }

    /**
     * The policy of a file, as the command "nutrameza build" writes it.
     *
     * @param file the file
     * @return the policy
     * @throws IOException where the file can't be read
     */
    public static Policy read(Path file) throws IOException {
        return of(Files.readAllBytes(file));
    }

    /** The image as the calls take it. */
    ByteBuffer image() {
        return image;
    }

    /**
     * The image.
     *
     * @return its bytes, an array of its own at each reading
     */
    public byte[] bytes() {
        byte[] bytes = new byte[image.limit()];
        image.duplicate().get(bytes);
        return bytes;
    }

    /**
     * How many users the head of the image names. Nothing is judged: of a refused image it is whatever stands there.
     *
     * @return the number; 0 of fewer than four bytes
     */
    public int users() {
        return head(21, 127);
    }

    /**
     * How many roles the head of the image names, likewise.
     *
     * @return the number
     */
    public int roles() {
        return head(14, 127);
    }

    /**
     * How many permissions the head of the image names, likewise.
     *
     * @return the number
     */
    public int permissions() {
        return head(5, 511);
    }

    private int head(int shift, int mask) {
        if (image.limit() < Limits.WORD_BYTES) {
            return 0;
        }
        return image.duplicate().order(ByteOrder.LITTLE_ENDIAN).getInt(0) >>> shift & mask;
    }

    /**
     * The ledger of a new site: a zero line for each user that the image's head names.
     *
     * @return the ledger
     */
    public Ledger newLedger() {
        return Ledger.of(new byte[Limits.LINE_BYTES * users()]);
    }

    /**
     * Judges the image.
     *
     * @return done, or why it is refused
     */
    public Answer check() {
        return new Answer(Returned.of(Call.CHECK, Kit.check(image)));
    }

    /**
     * Why the image is refused by {@link Refusal#LOOP}: a shortest chain of senior words from a role back to it.
     *
     * @return the chain; refused by {@link Refusal#NONE} where there is no loop
     */
    public Answer.Looped loop() {
        ByteBuffer chain = ByteBuffer.allocate(Limits.CHAIN_BYTES);
        return new Answer.Looped(Returned.of(Call.LOOP, Kit.loop(image, chain), chain.array()));
    }

    /**
     * The tidy image, which all images of the same meaning share.
     *
     * @return the image
     */
    public Answer.Tidied tidy() {
        return tidy(image.limit());
    }

    /**
     * The tidy image, if it has at most so many bytes.
     *
     * @param room the most bytes
     * @return the image; refused by {@link Refusal#ROOM} where it has more
     * @throws IllegalArgumentException for a room below 0
     */
    public Answer.Tidied tidy(int room) {
        ByteBuffer out = ByteBuffer.allocate(room);
        long returned = Kit.tidy(image, out);
        int size = Kit.isDone(returned) ? (int) (Limits.WORD_BYTES * Kit.extra(returned)) : 0;
        return new Answer.Tidied(Returned.of(Call.TIDY, returned, Arrays.copyOf(out.array(), size)));
    }

    /**
     * The closed grant table: what each role carries, after seniority.
     *
     * @return the table
     */
    public Answer.Table table() {
        ByteBuffer table = ByteBuffer.allocate(Limits.TABLE_BYTES);
        return new Answer.Table(Returned.of(Call.TABLE, Kit.table(image, table), table.array()));
    }

    /**
     * A grant table turned: the roles of each permission.
     *
     * @param table the bytes of a grant table
     * @return the turned table; refused by {@link Refusal#ROOM} for another number of bytes
     */
    public static Answer.Turned turn(byte[] table) {
        ByteBuffer target = ByteBuffer.allocate(Limits.TABLE_BYTES);
        return new Answer.Turned(Returned.of(Call.TURN, Kit.turn(ByteBuffer.wrap(table), target), target.array()));
    }

    /**
     * A turned grant table turned back.
     *
     * @param turned the bytes of a turned grant table
     * @return the table; refused by {@link Refusal#ROOM} for another number of bytes
     */
    public static Answer.Table unturn(byte[] turned) {
        ByteBuffer target = ByteBuffer.allocate(Limits.TABLE_BYTES);
        return new Answer.Table(Returned.of(Call.UNTURN, Kit.unturn(ByteBuffer.wrap(turned), target), target.array()));
    }

    @Override
    public boolean equals(Object other) {
        return other instanceof Policy && ((Policy) other).image.equals(image);
    }

    @Override
    public int hashCode() {
        return image.hashCode();
    }

    @Override
    public String toString() {
        return "a policy of " + image.limit() + " bytes";
    }
}
