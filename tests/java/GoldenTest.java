package nutrameza.tests;

import static nutrameza.tests.Check.same;
import static nutrameza.tests.Check.that;

import java.nio.ByteBuffer;
import java.nio.file.Files;
import java.nio.file.Path;
import java.util.ArrayList;
import java.util.Arrays;
import java.util.List;
import java.util.Map;
import java.util.Set;
import java.util.TreeMap;
import java.util.TreeSet;
import nutrameza.Aim;
import nutrameza.Answer;
import nutrameza.Kit;
import nutrameza.Ledger;
import nutrameza.Limits;
import nutrameza.PermissionSet;
import nutrameza.Policy;
import nutrameza.Session;

/**
 * Generated calls beside the separate solver's answers, by the objects and by the buffers in turn. The property
 * nutrameza.golden names the file that golden_calls printed.
 */
public final class GoldenTest {
    private static final Set<String> ON_LEDGERS = Set.of("open", "close", "ask", "short_ask", "show", "explain", "obstacle", "clauses");

    private byte[] image = {};
    private byte[] old = {};
    private Policy policy = Policy.of(image);
    private ByteBuffer ledger = ByteBuffer.allocate(0);
    private int place;
    private int byObjects;
    private final Map<String, Integer> calls = new TreeMap<>();
    private final Set<Integer> numbers = new TreeSet<>();

    /** What a call answered: what it returned, and what it filled where it is done. */
    private static final class Seen {
        final long returned;
        final byte[] filled;

        Seen(long returned, byte[] filled) {
            this.returned = returned;
            this.filled = Kit.isDone(returned) ? filled : new byte[0];
        }

        Seen(Answer answer) {
            this(answer.number() + 256 * answer.extra(), answer.filled());
        }
    }

    private static byte[] ofHex(String word) {
        byte[] bytes = new byte[word.equals("-") ? 0 : word.length() / 2];
        for (int at = 0; at < bytes.length; at++) {
            bytes[at] = (byte) Integer.parseInt(word.substring(2 * at, 2 * at + 2), 16);
        }
        return bytes;
    }

    private static ByteBuffer direct(byte[] bytes) {
        return ByteBuffer.allocateDirect(bytes.length).put(bytes).flip();
    }

    /** A buffer for a line: direct for every other one. */
    private ByteBuffer given(byte[] bytes) {
        return place % 4 < 2 ? direct(bytes) : ByteBuffer.wrap(bytes);
    }

    private Seen filled(ByteBuffer out, long returned, int size) {
        byte[] bytes = new byte[Kit.isDone(returned) ? size : 0];
        out.duplicate().get(bytes);
        return new Seen(returned, bytes);
    }

    private Seen onImage(String name, String[] words) {
        boolean objects = place % 2 == 0;
        ByteBuffer bytes = given(image);
        switch (name) {
            case "check":
                return objects ? new Seen(policy.check()) : new Seen(Kit.check(bytes), new byte[0]);
            case "loop": {
                ByteBuffer chain = given(new byte[64]);
                return objects ? new Seen(policy.loop()) : filled(chain, Kit.loop(bytes, chain), 64);
            }
            case "tidy": {
                ByteBuffer out = given(new byte[Integer.parseInt(words[0])]);
                long returned = objects ? 0 : Kit.tidy(bytes, out);
                return objects ? new Seen(policy.tidy(out.limit())) : filled(out, returned, 4 * (int) Kit.extra(returned));
            }
            case "table": {
                ByteBuffer table = given(new byte[2048]);
                return objects ? new Seen(policy.table()) : filled(table, Kit.table(bytes, table), 2048);
            }
            default:
                return onTable(name, ofHex(words[0]), objects);
        }
    }

    private Seen onTable(String name, byte[] source, boolean objects) {
        boolean turn = name.equals("turn");
        if (objects) {
            return turn ? new Seen(Policy.turn(source)) : new Seen(Policy.unturn(source));
        }
        ByteBuffer target = given(new byte[2048]);
        return filled(target, turn ? Kit.turn(given(source), target) : Kit.unturn(given(source), target), 2048);
    }

    private Seen onLedgers(String name) {
        boolean objects = place % 2 == 0;
        int users = policy.users();
        if (name.equals("stopped")) {
            ByteBuffer out = given(new byte[8]);
            return objects ? new Seen(Ledger.over(ledger).stopped(policy)) : filled(out, Kit.stopped(given(image), ledger, out), 8);
        }
        boolean widen = name.equals("widen");
        if (objects) {
            return widen ? new Seen(Ledger.of(old).widen(policy)) : new Seen(Ledger.of(old).narrow(policy));
        }
        ByteBuffer made = given(new byte[users * (widen ? Limits.LINE_BYTES : Limits.OLD_LINE_BYTES)]);
        return filled(made, widen ? Kit.widen(given(image), given(old), made) : Kit.narrow(given(image), given(old), made), made.limit());
    }

    /** By the objects, where their types take what the line has. */
    private Seen byObjects(String name, List<String> words) {
        long user = Long.parseUnsignedLong(words.get(0));
        if (name.equals("open")) {
            return new Seen(Ledger.over(ledger).open(policy, user));
        }
        Session session = Ledger.over(ledger).session(policy, user, Long.parseUnsignedLong(words.get(1)));
        switch (name) {
            case "close":
                return new Seen(session.close());
            case "show":
                return new Seen(session.show());
            case "explain":
                return new Seen(session.explain(Long.parseUnsignedLong(words.get(2))));
            default:
                return asked(name, session, words);
        }
    }

    private Seen asked(String name, Session session, List<String> words) {
        PermissionSet lower = PermissionSet.ofBytes(ofHex(words.get(2)));
        PermissionSet upper = PermissionSet.ofBytes(ofHex(words.get(3)));
        if (name.equals("short_ask")) {
            return new Seen(session.shortAsk(lower, upper));
        }
        if (name.equals("obstacle")) {
            return new Seen(session.obstacle(lower, upper));
        }
        Aim first = Aim.values()[Integer.parseInt(words.get(4))];
        Aim second = Aim.values()[Integer.parseInt(words.get(5))];
        return name.equals("ask") ? new Seen(session.ask(lower, upper, first, second))
            : new Seen(session.clauses(lower, upper, first, second, Integer.parseInt(words.get(6))));
    }

    private boolean fitsObjects(String name, List<String> words) {
        boolean sized = words.size() < 4 || (words.get(2).length() == 64 && words.get(3).length() == 64);
        return sized && (words.size() < 6 || (words.get(4).matches("[012]") && words.get(5).matches("[012]")));
    }

    private Seen byBuffers(String name, List<String> words) {
        List<Long> n = new ArrayList<>();
        for (int at = 0; at < words.size(); at++) {
            n.add(words.size() >= 4 && (at == 2 || at == 3) ? 0L : Long.parseUnsignedLong(words.get(at)));
        }
        ByteBuffer bytes = given(image);
        ByteBuffer lower = words.size() < 4 ? null : given(ofHex(words.get(2)));
        ByteBuffer upper = words.size() < 4 ? null : given(ofHex(words.get(3)));
        ByteBuffer answer = given(new byte[name.equals("obstacle") ? 16 : name.equals("clauses") ? n.get(6).intValue() : 40]);
        switch (name) {
            case "open":
                return new Seen(Kit.open(bytes, ledger, n.get(0)), new byte[0]);
            case "close":
                return new Seen(Kit.close(bytes, ledger, n.get(0), n.get(1)), new byte[0]);
            case "explain":
                return new Seen(Kit.explain(bytes, ledger, n.get(0), n.get(1), n.get(2)), new byte[0]);
            case "show":
                return filled(answer, Kit.show(bytes, ledger, n.get(0), n.get(1), answer), 40);
            case "short_ask":
                return filled(answer, Kit.shortAsk(bytes, ledger, n.get(0), n.get(1), lower, upper, answer), 40);
            case "obstacle":
                return filled(answer, Kit.obstacle(bytes, ledger, n.get(0), n.get(1), lower, upper, answer), 16);
            case "ask":
                return filled(answer, Kit.ask(bytes, ledger, n.get(0), n.get(1), lower, upper, n.get(4), n.get(5), answer), 40);
            default: {
                long returned = Kit.clauses(bytes, ledger, n.get(0), n.get(1), lower, upper, n.get(4), n.get(5), answer);
                return filled(answer, returned, (int) Kit.extra(returned));
            }
        }
    }

    private Seen made(String name, String[] words) {
        if (!ON_LEDGERS.contains(name)) {
            return Set.of("stopped", "widen", "narrow").contains(name) ? onLedgers(name) : onImage(name, words);
        }
        List<String> given = Arrays.asList(words);
        boolean objects = place % 2 == 0 && fitsObjects(name, given);
        byObjects += objects ? 1 : 0;
        return objects ? byObjects(name, given) : byBuffers(name, given);
    }

    private void play(String name, List<String> words, String line) {
        int at = words.indexOf("=");
        long returned = Long.parseLong(words.get(at + 1)) + 256 * Long.parseLong(words.get(at + 2));
        Seen seen = made(name, words.subList(0, at).toArray(new String[0]));
        that(seen.returned == returned, "line " + place + ": " + seen.returned + ": " + line.substring(0, Math.min(2000, line.length())));
        that(Arrays.equals(ofHex(words.get(at + 3)), seen.filled), "line " + place + ", what was filled: " + line);
        calls.merge(name, 1, Integer::sum);
        numbers.add(Kit.number(returned));
    }

    public void everyCallAnswersAsTheSolverDoes() throws Exception {
        for (String line : Files.readAllLines(Path.of(System.getProperty("nutrameza.golden")))) {
            place++;
            List<String> words = Arrays.asList(line.split(" "));
            String name = words.get(0);
            byte[] bytes = words.size() == 2 ? ofHex(words.get(1)) : null;
            if (name.equals("image")) {
                image = bytes;
                policy = Policy.of(bytes);
            } else if (name.equals("ledger")) {
                ledger = given(bytes);
            } else if (name.equals("old")) {
                old = bytes;
            } else if (name.equals("after")) {
                same(bytes, Ledger.over(ledger).bytes());
            } else {
                play(name, words.subList(1, words.size()), line);
            }
        }
        Set<Integer> all = new TreeSet<>();
        for (int number = 0; number <= 24; number++) {
            all.add(number);
        }
        all.remove(21);
        int made = calls.values().stream().mapToInt(Integer::intValue).sum();
        same(17, calls.size());
        same(all, numbers);
        that(made > 5000 && byObjects > 1500, made + " calls, " + byObjects + " of those on ledgers by objects");
        System.out.println("        " + made + " calls, " + byObjects + " of those on ledgers by objects");
    }
}
