package nutrameza.tests;

import static nutrameza.tests.Check.same;
import static nutrameza.tests.Check.that;
import static nutrameza.tests.Check.thrown;

import java.nio.ByteBuffer;
import java.nio.ReadOnlyBufferException;
import java.nio.file.Files;
import java.nio.file.Path;
import java.util.Arrays;
import java.util.List;
import java.util.function.Function;
import nutrameza.Kit;
import nutrameza.Ledger;
import nutrameza.PermissionSet;
import nutrameza.Policy;
import nutrameza.Refusal;

/** The calls over buffers of every sort: direct, heap, read-only, with a position and a limit, slices that overlap. */
public final class BufferTest {
    private static final byte[] IMAGE = Images.ward().image();
    private static final byte[] ALL = PermissionSet.below(5).toBytes();
    private static final byte[] PRESCRIBE = PermissionSet.of(2).toBytes();

    /** Bytes within a larger buffer of one sort, other bytes around them. */
    private static ByteBuffer within(Function<Integer, ByteBuffer> made, byte[] bytes) {
        ByteBuffer buffer = made.apply(bytes.length + 12);
        while (buffer.hasRemaining()) {
            buffer.put((byte) 0x5A);
        }
        buffer.position(5);
        buffer.put(bytes).position(5).limit(5 + bytes.length);
        return buffer;
    }

    private static byte[] seen(ByteBuffer buffer) {
        byte[] bytes = new byte[buffer.remaining()];
        buffer.duplicate().get(bytes);
        return bytes;
    }

    /** The bytes around those between position and limit are as they were. */
    private static void untouched(ByteBuffer buffer) {
        ByteBuffer whole = buffer.duplicate();
        whole.clear();
        for (int at = 0; at < whole.capacity(); at++) {
            that((at >= 5 && at < whole.capacity() - 7) || whole.get(at) == 0x5A, at);
        }
        same(List.of(5, whole.capacity() - 7), List.of(buffer.position(), buffer.limit()));
    }

    /** The heap's buffers whose array is longer than they are. */
    private static ByteBuffer sliced(int size) {
        ByteBuffer larger = ByteBuffer.allocate(size + 40);
        larger.position(17).limit(17 + size);
        return larger.slice();
    }

    private static final List<Function<Integer, ByteBuffer>> SORTS =
        List.of(ByteBuffer::allocateDirect, ByteBuffer::allocate, BufferTest::sliced);

    public void everySortOfBufferGivesTheSame() {
        for (Function<Integer, ByteBuffer> one : SORTS) {
            for (Function<Integer, ByteBuffer> two : SORTS) {
                for (boolean readOnly : new boolean[] {false, true}) {
                    played(one, two, readOnly);
                }
            }
        }
    }

    private void played(Function<Integer, ByteBuffer> one, Function<Integer, ByteBuffer> two, boolean readOnly) {
        ByteBuffer image = within(one, IMAGE);
        ByteBuffer ledger = within(two, new byte[144]);
        ByteBuffer lower = within(one, PRESCRIBE);
        ByteBuffer upper = within(two, ALL);
        ByteBuffer answer = within(one, new byte[40]);
        ByteBuffer read = readOnly ? image.asReadOnlyBuffer() : image;
        same(0L, Kit.open(read, ledger, 0));
        same(256L, Kit.open(read, ledger, 0));
        ByteBuffer bound = readOnly ? lower.asReadOnlyBuffer() : lower;
        same(0L, Kit.shortAsk(read, ledger, 0, 0, bound, readOnly ? upper.asReadOnlyBuffer() : upper, answer));
        byte[] expected = new byte[40];
        expected[0] = 1;
        expected[8] = 15;
        same(expected, seen(answer));
        ByteBuffer shown = within(two, new byte[40]);
        same(0L, Kit.show(read, readOnly ? ledger.asReadOnlyBuffer() : ledger, 0, 0, shown));
        same(expected, seen(shown));
        same(20, Kit.number(Kit.shortAsk(read, ledger, 0, 1, within(one, PermissionSet.of(4).toBytes()), upper, answer)));
        same(expected, seen(answer));
        for (ByteBuffer buffer : List.of(image, ledger, lower, upper, answer, shown)) {
            untouched(buffer);
        }
        same(IMAGE, seen(image));
    }

    public void whatIsBeyondTheTextIsNotTouched() {
        for (Function<Integer, ByteBuffer> made : SORTS) {
            byte[] room = new byte[IMAGE.length + 9];
            Arrays.fill(room, (byte) 7);
            ByteBuffer out = within(made, room);
            same(13L, Kit.extra(Kit.tidy(within(made, IMAGE), out)));
            byte[] bytes = seen(out);
            same(IMAGE, Arrays.copyOf(bytes, IMAGE.length));
            same(Arrays.copyOf(room, 9), Arrays.copyOfRange(bytes, IMAGE.length, bytes.length));
            untouched(out);
        }
    }

    public void aRefusedCallChangesNoByte() {
        for (Function<Integer, ByteBuffer> made : SORTS) {
            byte[] bytes = new byte[144];
            bytes[3] = 1;
            ByteBuffer ledger = within(made, bytes);
            same(11L, Kit.open(within(made, IMAGE), ledger, 0));
            same(bytes, seen(ledger));
            untouched(ledger);
        }
    }

    public void everySizeIsTheLibrarysToJudge() {
        ByteBuffer image = ByteBuffer.wrap(IMAGE);
        ByteBuffer none = ByteBuffer.allocateDirect(0);
        same(1L, Kit.check(none));
        same(1L, Kit.check(ByteBuffer.allocate(0)));
        same(1L, Kit.check(ByteBuffer.wrap(IMAGE, 0, IMAGE.length - 1)));
        same(9L, Kit.open(image, none, 0));
        same(19L, Kit.loop(image, ByteBuffer.allocate(63)));
        same(19L, Kit.table(image, ByteBuffer.allocateDirect(2049)));
        same(19L, Kit.stopped(image, ByteBuffer.allocate(144), none));
        ByteBuffer ledger = ByteBuffer.allocate(144);
        same(0L, Kit.open(image, ledger, 0));
        same(15L, Kit.shortAsk(image, ledger, 0, 0, none, ByteBuffer.wrap(ALL), ByteBuffer.allocate(40)));
        same(15L, Kit.obstacle(image, ledger, 0, 0, ByteBuffer.wrap(ALL), ByteBuffer.allocate(33), ByteBuffer.allocate(16)));
        same(18L, Kit.ask(image, ledger, 0, 0, ByteBuffer.wrap(PRESCRIBE), ByteBuffer.wrap(ALL), 3, 0, ByteBuffer.allocate(40)));
        same(18L, Kit.ask(image, ledger, 0, 0, ByteBuffer.wrap(PRESCRIBE), ByteBuffer.wrap(ALL), 0, -1, ByteBuffer.allocate(40)));
        same(19L, Kit.ask(image, ledger, 0, 0, ByteBuffer.wrap(PRESCRIBE), ByteBuffer.wrap(ALL), 0, 0, ByteBuffer.allocate(41)));
        same(10L, Kit.close(image, ledger, -1, 0));
    }

    /** A copy of an image that is left behind at each call would be a third of a gigabyte. */
    public void noMemoryGrows() throws Exception {
        ByteBuffer image = ByteBuffer.wrap(new byte[16384]);
        ByteBuffer out = ByteBuffer.allocate(16384);
        long[] resident = new long[2];
        for (int times = 0; times < 2; times++) {
            for (int call = 0; call < 10000 * (1 + times); call++) {
                same(2L, Kit.check(image));
                thrown(IllegalArgumentException.class, () -> Kit.tidy(image, image.duplicate()));
                same(2L, Kit.tidy(image, out));
            }
            for (String line : Files.readAllLines(Path.of("/proc/self/status"))) {
                resident[times] = line.startsWith("VmRSS:") ? Long.parseLong(line.replaceAll("[^0-9]", "")) : resident[times];
            }
        }
        that(resident[1] - resident[0] < 150000, resident[0] + " kB, then " + resident[1]);
    }

    public void nullAndReadOnly() {
        ByteBuffer image = ByteBuffer.wrap(IMAGE);
        ByteBuffer ledger = ByteBuffer.allocateDirect(144);
        thrown(NullPointerException.class, () -> Kit.check(null));
        thrown(NullPointerException.class, () -> Kit.open(image, null, 0));
        thrown(NullPointerException.class, () -> Kit.show(image, ledger, 0, 0, null));
        thrown(NullPointerException.class, () -> Kit.shortAsk(image, ledger, 0, 0, image, null, image));
        thrown(ReadOnlyBufferException.class, () -> Kit.open(image, ledger.asReadOnlyBuffer(), 0));
        thrown(ReadOnlyBufferException.class, () -> Kit.show(image, ledger, 0, 0, ByteBuffer.allocate(40).asReadOnlyBuffer()));
        thrown(ReadOnlyBufferException.class, () -> Ledger.over(ByteBuffer.wrap(IMAGE).asReadOnlyBuffer()));
        same(new byte[144], seen(ledger));
    }

    public void aBufferThatIsWrittenSharesNoByte() {
        for (Function<Integer, ByteBuffer> made : SORTS) {
            ByteBuffer whole = made.apply(4096);
            ByteBuffer image = part(whole, 100, IMAGE.length).put(IMAGE).flip();
            ByteBuffer ledger = part(whole, 100 + IMAGE.length, 144);
            same(0L, Kit.open(image, ledger, 0));
            for (int[] place : new int[][] {{100, 144}, {99 + IMAGE.length, 144}, {0, 101}}) {
                ByteBuffer over = part(whole, place[0], place[1]);
                thrown(IllegalArgumentException.class, () -> Kit.open(image, over, 0));
            }
            same(9L, Kit.open(image, part(whole, 0, 100), 0));
            same(19L, Kit.show(image, ledger, 0, 0, part(whole, 110, 0)));
            ByteBuffer bound = part(whole, 1000, 32).put(PRESCRIBE).flip();
            ByteBuffer all = part(whole, 1040, 32).put(ALL).flip();
            thrown(IllegalArgumentException.class, () -> Kit.shortAsk(image, ledger, 0, 0, bound, all, part(whole, 1031, 40)));
            thrown(IllegalArgumentException.class, () -> Kit.shortAsk(image, ledger, 0, 0, bound, all, part(whole, 961, 40)));
            thrown(IllegalArgumentException.class, () -> Kit.shortAsk(image, ledger, 0, 0, bound, all, ledger));
            bound.duplicate().put(PermissionSet.below(4).toBytes());
            same(0L, Kit.shortAsk(image, ledger, 0, 0, bound, bound.duplicate(), part(whole, 1072, 40)));
            same(IMAGE, seen(image));
        }
    }

    private static ByteBuffer part(ByteBuffer whole, int from, int size) {
        ByteBuffer part = whole.duplicate();
        part.position(from).limit(from + size);
        return part.slice();
    }

    public void twoWrittenPartsOfOneArray() {
        byte[] bytes = new byte[400];
        ByteBuffer ledger = ByteBuffer.wrap(bytes, 8, 144);
        ByteBuffer answer = ByteBuffer.wrap(bytes, 152, 40);
        same(0L, Kit.open(ByteBuffer.wrap(IMAGE), ledger, 0));
        same(0L, Kit.shortAsk(ByteBuffer.wrap(IMAGE), ledger, 0, 0, ByteBuffer.wrap(PRESCRIBE), ByteBuffer.wrap(ALL), answer));
        same(List.of((byte) 1, (byte) 1, (byte) 1, (byte) 15), List.of(bytes[8], bytes[8 + 16], bytes[152], bytes[160]));
    }

    public void aLedgerAndAPolicyOverTheHostsBuffer() {
        for (Function<Integer, ByteBuffer> made : SORTS) {
            ByteBuffer bytes = within(made, new byte[144]);
            Ledger ledger = Ledger.over(bytes);
            Policy policy = Policy.over(within(made, IMAGE));
            same(Images.ward().policy(), policy);
            that(ledger.open(policy, 0).isDone(), ledger);
            that(ledger.session(policy, 0, 0).shortAsk(PermissionSet.of(2), PermissionSet.below(5)).isDone(), ledger);
            same(List.of((byte) 1, (byte) 1), List.of(bytes.get(5), bytes.get(5 + 16)));
            same(seen(bytes), ledger.bytes());
            untouched(bytes);
            that(ledger.stopped(Policy.of(new byte[0])).refusedBy(Refusal.LENGTH), ledger);
        }
    }
}
