package nutrameza.tests;

import static nutrameza.tests.Check.same;
import static nutrameza.tests.Check.that;
import static nutrameza.tests.Check.thrown;

import java.nio.ByteBuffer;
import java.util.ArrayList;
import java.util.BitSet;
import java.util.List;
import java.util.Optional;
import java.util.Queue;
import java.util.concurrent.ConcurrentLinkedQueue;
import java.util.function.IntFunction;
import nutrameza.Aim;
import nutrameza.Answer;
import nutrameza.ExclusionKind;
import nutrameza.Ledger;
import nutrameza.NotDoneException;
import nutrameza.ObstacleKind;
import nutrameza.PermissionSet;
import nutrameza.Policy;
import nutrameza.Refusal;
import nutrameza.RoleSet;
import nutrameza.Session;
import nutrameza.UserSet;

/** Policies, ledgers and sessions: what their calls answer. */
public final class KitTest {
    private static final PermissionSet ALL = PermissionSet.below(5);

    private final Policy ward = Images.ward().policy();
    private final Ledger ledger = ward.newLedger();

    private Session opened() {
        return ledger.session(ward, 0, ledger.open(ward, 0).session());
    }

    public void theWard() {
        Session first = opened();
        Session second = opened();
        same(List.of(0L, 1L), List.of(first.number(), second.number()));
        Answer.Chosen answer = first.shortAsk(PermissionSet.of(Images.PRESCRIBE), ALL);
        same(List.of(true, 0, "done", 0L), List.of(answer.isDone(), answer.number(), answer.word(), answer.extra()));
        same(RoleSet.of(Images.DOCTOR), answer.roles());
        same(PermissionSet.of(0, 1, 2, 3), answer.permissions());
        same(answer.roles(), first.show().roles());
        Answer.Chosen refused = second.shortAsk(PermissionSet.of(Images.SEND_DATA), ALL);
        same(Optional.of(Refusal.NONE), refused.refusal());
        that(refused.refusedBy(Refusal.NONE) && !refused.refusedBy(Refusal.AIM) && !refused.isDone(), refused);
        Answer.Obstacle way = second.obstacle(PermissionSet.of(Images.SEND_DATA), ALL);
        same(List.of(ObstacleKind.EXCLUSION, ExclusionKind.MS_DMER, 2), List.of(way.kind(), way.exclusionKind(), way.n()));
        same(List.of(RoleSet.of(0), RoleSet.of(0, 1)), List.of(way.roles(), way.members()));
        Answer.Explained explained = first.explain(Images.READ_ID);
        same(List.of(0, 0), List.of(explained.role(), explained.grantingRole()));
        same(BitSet.valueOf(new byte[] {3}), ledger.openSessions(0));
        that(first.close().isDone(), first);
        same(RoleSet.of(Images.MANAGER), second.ask(PermissionSet.of(Images.SEND_DATA), ALL, Aim.MOST, Aim.ANY).roles());
        same(Optional.of(Refusal.CLOSED), first.show().refusal());
        same(Optional.empty(), second.show().refusal());
    }

    public void theAimsOfAnAskAreTakenInTheirOrder() {
        Policy three = new Images(1, 3, 4).assign(0, 0).assign(0, 1).assign(0, 2).grant(0, 0, 2).grant(1, 1, 3).grant(2, 1, 2).policy();
        Ledger own = three.newLedger();
        Session session = own.session(three, 0, own.open(three, 0).session());
        PermissionSet lower = PermissionSet.of(0);
        PermissionSet upper = PermissionSet.below(4);
        same(RoleSet.of(0, 1), session.ask(lower, upper, Aim.MOST, Aim.ANY).roles());
        same(RoleSet.of(0, 1, 2), session.ask(lower, upper, Aim.MOST, Aim.MOST).roles());
        same(RoleSet.of(0), session.ask(lower, upper, Aim.FEWEST, Aim.MOST).roles());
        that(!session.clauses(lower, upper, Aim.ANY, Aim.MOST).equals(session.clauses(lower, upper, Aim.MOST, Aim.ANY)), session);
    }

    public void whatOnlyADoneCallHasIsNotReadOfARefusedOne() {
        Policy none = Policy.of(new byte[0]);
        Session closed = ledger.session(ward, 0, 0);
        Answer.Obstacle way = closed.obstacle(ALL, ALL);
        Answer.Table table = none.table();
        for (Check.Code code : List.<Check.Code>of(() -> ledger.open(ward, 9).session(), () -> closed.show().roles(),
                () -> closed.show().permissions(), () -> closed.explain(0).role(), () -> closed.explain(0).grantingRole(),
                () -> ledger.stopped(none).users(), way::kind, way::roles, way::members, way::permission, way::exclusionKind,
                way::n, () -> ward.loop().chain(), () -> none.tidy().policy(), table::table, () -> table.carriedBy(0),
                () -> Policy.turn(new byte[3]).table(), () -> Policy.turn(new byte[3]).carrying(0),
                () -> Ledger.of(new byte[3]).widen(ward).ledger(), () -> closed.clauses(ALL, ALL, Aim.ANY, Aim.ANY).text())) {
            NotDoneException seen = thrown(NotDoneException.class, code);
            that(seen.answer() != null && seen.getMessage().contains("refused") && seen.answer().filled().length == 0, seen);
        }
        thrown(IllegalStateException.class, () -> ledger.open(ward, 0).window());
        thrown(IllegalStateException.class, () -> ledger.open(ward, 0).stored());
    }

    public void anObstacleHasWhatItsKindHas() {
        Session session = opened();
        Answer.Obstacle upper = session.obstacle(PermissionSet.of(2), PermissionSet.of(2));
        same(List.of(ObstacleKind.UPPER, 2, RoleSet.of(0), RoleSet.of()), List.of(upper.kind(), upper.permission(), upper.roles(), upper.members()));
        thrown(IllegalStateException.class, upper::n);
        thrown(IllegalStateException.class, upper::exclusionKind);
        Answer.Obstacle both = session.obstacle(PermissionSet.of(2, 4), ALL);
        same(ObstacleKind.EXCLUSION, both.kind());
        thrown(IllegalStateException.class, both::permission);
        Policy own = new Images(2, 1, 2).assign(0, 0).assign(1, 0).grant(0, 0).limit(0, 2).policy();
        Ledger two = own.newLedger();
        Session anna = two.session(own, 0, two.open(own, 0).session());
        Session bert = two.session(own, 1, two.open(own, 1).session());
        same(ObstacleKind.OWN, anna.obstacle(PermissionSet.of(1), PermissionSet.below(2)).kind());
        that(anna.shortAsk(PermissionSet.of(0), PermissionSet.of(0)).isDone(), two);
        same(ObstacleKind.LIMIT, bert.obstacle(PermissionSet.of(0), PermissionSet.of(0)).kind());
    }

    public void answersInWordsAndCompared() {
        same("open: done", ledger.open(ward, 0).toString());
        same("open: done (1)", ledger.open(ward, 0).toString());
        byte[] wrong = ward.bytes();
        wrong[wrong.length - 1] = 0;
        same("check: refused: 3 kind (12)", Policy.of(wrong).check().toString());
        same(ward.check(), ward.check());
        same(ward.check().hashCode(), ward.check().hashCode());
        that(!ward.check().equals(Policy.of(new byte[0]).check()) && !ward.check().equals(ward.loop()), ward);
        same("short ask", ledger.session(ward, 0, 0).shortAsk(ALL, ALL).call());
    }

    public void tablesTidyImagesLoopsAndTexts() {
        Answer.Table table = ward.table();
        same(List.of(PermissionSet.of(0, 1, 2, 3), PermissionSet.of(1, 4), PermissionSet.of()),
            List.of(table.carriedBy(0), table.carriedBy(1), table.carriedBy(63)));
        Answer.Turned turned = Policy.turn(table.table());
        same(List.of(RoleSet.of(0), RoleSet.of(0, 1), RoleSet.of()), List.of(turned.carrying(0), turned.carrying(1), turned.carrying(255)));
        same(table.table(), Policy.unturn(turned.table()).table());
        for (int role : new int[] {-1, 64}) {
            thrown(IndexOutOfBoundsException.class, () -> table.carriedBy(role));
        }
        thrown(IndexOutOfBoundsException.class, () -> turned.carrying(256));
        same(ward, ward.tidy().policy());
        same(ward, new Images(1, 2, 5).exclude(1, 2, 1, 0).assign(0, 1).assign(0, 0).assign(0, 1).grant(0, 3, 2, 1, 0).grant(1, 4, 1).policy().tidy().policy());
        same(Optional.of(Refusal.ROOM), ward.tidy(48).refusal());
        same(List.of(1, 2, 0), Images.looped().policy().loop().chain());
        same(Optional.of(Refusal.LOOP), Images.looped().policy().check().refusal());
        Session session = opened();
        that(session.clauses(PermissionSet.of(0), ALL, Aim.FEWEST, Aim.FEWEST).text().startsWith("p wcnf "), session);
        same(Optional.of(Refusal.ROOM), session.clauses(PermissionSet.of(0), ALL, Aim.FEWEST, Aim.FEWEST, 5).refusal());
    }

    public void aLongClauseTextHasRoom() {
        Images images = new Images(1, 64, 256);
        int[] all = new int[64];
        for (int role = 0; role < 64; role++) {
            all[role] = role;
        }
        for (int role = 0; role < 16; role++) {
            images.assign(0, role);
        }
        for (int times = 0; times < 32; times++) {
            images.exclude(0, 63, all);
        }
        Policy policy = images.policy();
        Ledger own = policy.newLedger();
        own.open(policy, 0);
        String text = own.session(policy, 0, 0).clauses(PermissionSet.of(), PermissionSet.below(256), Aim.MOST, Aim.MOST).text();
        that(text.length() > 5000000, text.length());
    }

    public void ledgersAreWidenedAndNarrowed() {
        ledger.open(ward, 0);
        Answer.Carried narrow = ledger.narrow(ward);
        same(80, narrow.ledger().bytes().length);
        same(ledger.bytes(), narrow.ledger().widen(ward).ledger().bytes());
        narrow.ledger().open(ward, 0);
        that(narrow.ledger() != narrow.ledger(), narrow);
    }

    public void stoppedAndWhoseLineIsNotSound() {
        byte[] bytes = ledger.bytes();
        bytes[8] = (byte) 0xFF;
        Ledger unsound = Ledger.of(bytes);
        Answer.Stopped told = unsound.stopped(ward);
        same(List.of(UserSet.of(0), 1L), List.of(told.users(), told.extra()));
        same(0L, unsound.session(ward, 0, 0).shortAsk(ALL, ALL).unsoundUser(0));
        same(bytes, unsound.bytes());
        Policy limits = new Images(2, 1, 1).assign(0, 0).assign(1, 0).grant(0, 0).limit(0, 2).policy();
        byte[] two = new byte[288];
        two[0] = 1;
        two[144 + 8] = 2;
        Answer.Chosen refused = Ledger.of(two).session(limits, 0, 0).shortAsk(PermissionSet.of(0), PermissionSet.of(0));
        same(List.of(Optional.of(Refusal.LINE), 1L), List.of(refused.refusal(), refused.unsoundUser(0)));
    }

    public void explainThroughARoleBelow() {
        Policy policy = new Images(1, 4, 2).assign(0, 3).senior(3, 2).grant(3, 0).grant(2, 1).policy();
        Ledger own = policy.newLedger();
        Session session = own.session(policy, 0, own.open(policy, 0).session());
        same(RoleSet.of(3), session.shortAsk(PermissionSet.of(0, 1), PermissionSet.of(0, 1)).roles());
        same(List.of(3, 2), List.of(session.explain(1).role(), session.explain(1).grantingRole()));
        same(Optional.of(Refusal.PERMISSION), session.explain(-1).refusal());
    }

    public void theSameSessionUnderAnotherPolicy() {
        Session session = opened();
        that(session.shortAsk(PermissionSet.of(2), ALL).isDone(), session);
        Session stopped = session.under(new Images(1, 2, 5).assign(0, 1).grant(1, 1, 4).policy());
        same(Optional.of(Refusal.LINE), stopped.show().refusal());
    }

    public void numbersHaveNoSign() {
        same(Optional.of(Refusal.PERSON), ledger.open(ward, -1).refusal());
        same(Optional.of(Refusal.SESSION), ledger.session(ward, 0, Long.MIN_VALUE).close().refusal());
        same(new BitSet(), ledger.openSessions(-1));
        same(new BitSet(), ledger.openSessions(1));
    }

    public void sets() {
        PermissionSet set = PermissionSet.of(0, 9, 255);
        same(set, PermissionSet.ofBytes(set.toBytes()));
        same(set, PermissionSet.of(set.toBitSet()));
        same(List.of(3, true, false, false), List.of(set.size(), set.contains(9), set.contains(8), set.contains(-1)));
        same(List.of(0, 9, 255), List.of(set.stream().boxed().toArray()));
        BitSet bits = set.toBitSet();
        bits.clear();
        same(3, set.size());
        that(!set.equals(RoleSet.of(0)) && !RoleSet.of(0).equals(UserSet.of(0)) && PermissionSet.of().isEmpty(), set);
        for (int number : new int[] {-1, 256, Integer.MAX_VALUE, Integer.MIN_VALUE}) {
            thrown(IllegalArgumentException.class, () -> PermissionSet.of(number));
        }
        thrown(IllegalArgumentException.class, () -> RoleSet.of(64));
        thrown(IllegalArgumentException.class, () -> PermissionSet.below(257));
        thrown(IllegalArgumentException.class, () -> PermissionSet.below(-1));
        BitSet wide = new BitSet();
        wide.set(256);
        thrown(IllegalArgumentException.class, () -> PermissionSet.of(wide));
        for (int size : new int[] {0, 31, 33}) {
            thrown(IllegalArgumentException.class, () -> PermissionSet.ofBytes(new byte[size]));
        }
    }

    public void nullIsThrownAndChangesNothing() {
        Session session = opened();
        byte[] before = ledger.bytes();
        for (Check.Code code : List.<Check.Code>of(() -> Policy.of(null), () -> Policy.over(null), () -> Policy.read(null),
                () -> Ledger.of(null), () -> Ledger.over(null), () -> ledger.open(null, 0), () -> ledger.session(null, 0, 0),
                () -> ledger.stopped(null), () -> ledger.widen(null), () -> ledger.narrow(null), () -> Policy.turn(null),
                () -> Policy.unturn(null), () -> session.shortAsk(null, ALL), () -> session.shortAsk(ALL, null),
                () -> session.ask(ALL, ALL, null, Aim.ANY), () -> session.ask(ALL, ALL, Aim.ANY, null), () -> session.under(null),
                () -> session.obstacle(null, ALL), () -> session.clauses(ALL, ALL, null, Aim.ANY), () -> PermissionSet.ofBytes(null),
                () -> PermissionSet.of((BitSet) null), () -> PermissionSet.of((int[]) null))) {
            thrown(NullPointerException.class, code);
        }
        thrown(IllegalArgumentException.class, () -> ward.tidy(-1));
        thrown(IllegalArgumentException.class, () -> session.clauses(ALL, ALL, Aim.ANY, Aim.ANY, -1));
        same(before, ledger.bytes());
    }

    public void headsOfAnyBytes() {
        same(List.of(1, 2, 5), List.of(ward.users(), ward.roles(), ward.permissions()));
        for (int size = 0; size < 4; size++) {
            same(0, Policy.of(new byte[size]).users());
            same(0, Policy.of(new byte[size]).newLedger().bytes().length);
        }
        same(Optional.of(Refusal.LENGTH), Policy.of(new byte[0]).check().refusal());
        same(Optional.of(Refusal.LENGTH), Policy.of(new byte[1 << 20]).check().refusal());
    }

    /** Runs as many threads as there are users, each with its number; what one of them sees wrong fails the test. */
    private static void threads(int count, IntFunction<Answer> work) throws Exception {
        Queue<Object> wrong = new ConcurrentLinkedQueue<>();
        List<Thread> threads = new ArrayList<>();
        for (int k = 0; k < count; k++) {
            int own = k;
            threads.add(new Thread(() -> {
                for (int round = 0; round < 1500; round++) {
                    Answer answer = work.apply(own);
                    if (!answer.isDone() && !answer.refusedBy(Refusal.FULL)) {
                        wrong.add(answer);
                    }
                }
            }));
        }
        threads.forEach(Thread::start);
        for (Thread thread : threads) {
            thread.join();
        }
        same(List.of(), List.copyOf(wrong));
    }

    /** Opens, asks, closes: the first answer that is refused, or the last. */
    private static Answer day(Policy policy, Ledger ledger, int user) {
        Answer.Opened opened = ledger.open(policy, user);
        if (!opened.isDone()) {
            return opened;
        }
        Session own = ledger.session(policy, user, opened.session());
        Answer.Chosen asked = own.shortAsk(PermissionSet.of(Images.PRESCRIBE), ALL);
        Answer.Chosen shown = own.show();
        return !asked.isDone() ? asked : !shown.isDone() ? shown : own.close();
    }

    public void manyThreadsOnOneUser() throws Exception {
        threads(6, user -> day(ward, ledger, 0));
        same(new BitSet(), ledger.openSessions(0));
    }

    /** Of a ledger on the heap each call copies all lines in and out: two at once would lose one's. */
    public void manyThreadsOnOneLedger() throws Exception {
        Images images = new Images(64, 2, 5).grant(0, 0, 1, 2, 3).grant(1, 1, 4);
        for (int user = 0; user < 64; user++) {
            images.assign(user, 0).assign(user, 1);
        }
        Policy policy = images.policy();
        Ledger heap = Ledger.over(ByteBuffer.allocate(64 * 144));
        threads(6, user -> day(policy, heap, 10 * user));
        for (int user = 0; user < 64; user++) {
            same(new BitSet(), heap.openSessions(user));
        }
    }
}
