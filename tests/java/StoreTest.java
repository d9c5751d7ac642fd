package nutrameza.tests;

import static nutrameza.tests.Check.same;
import static nutrameza.tests.Check.that;
import static nutrameza.tests.Check.thrown;

import java.nio.file.Files;
import java.nio.file.Path;
import java.time.Duration;
import java.time.Instant;
import java.util.ArrayList;
import java.util.List;
import java.util.Optional;
import java.util.UUID;
import java.util.stream.Collectors;
import java.util.stream.Stream;
import nutrameza.Aim;
import nutrameza.Answer;
import nutrameza.Export;
import nutrameza.Finding;
import nutrameza.GoOn;
import nutrameza.JournalEntry;
import nutrameza.Ledger;
import nutrameza.NotDoneException;
import nutrameza.ObstacleKind;
import nutrameza.PermissionSet;
import nutrameza.Policy;
import nutrameza.PolicyVersion;
import nutrameza.Refusal;
import nutrameza.Report;
import nutrameza.RoleSet;
import nutrameza.Store;
import nutrameza.StoreException;
import nutrameza.UserSet;
import nutrameza.Ward;
import nutrameza.Watcher;
import nutrameza.Window;

/** The store, a ward of its own for each test. The property nutrameza.store names the database, made beforehand. */
public final class StoreTest {
    static final String STORE = System.getProperty("nutrameza.store");
    private static final PermissionSet ALL = PermissionSet.below(5);
    private static final PermissionSet READ_ID = PermissionSet.of(Images.READ_ID);
    private static final PermissionSet SEND = PermissionSet.of(Images.SEND_DATA);
    private static final Policy POLICY = Images.ward().policy();

    private final String ward = "ward " + UUID.randomUUID();

    /** A test on a ward of its own. */
    private interface Test {
        void on(Store store) throws Exception;
    }

    private void with(Test test) throws Exception {
        try (Store store = Store.connect(STORE, "first " + ward)) {
            store.make();
            that(store.create(ward, POLICY).isDone() && store.hasTables(), ward);
            test.on(store);
        }
    }

    private Answer.Chosen asked(Store store, long window, PermissionSet lower) {
        return store.shortAsk(ward, 0, window, lower, ALL);
    }

    public void twoWindowsAndTheDisclosureThatIsRefused() throws Exception {
        with(store -> {
            long first = store.open(ward, 0).window();
            long second = store.open(ward, 0).window();
            Answer.Chosen answer = asked(store, first, READ_ID);
            same(List.of(true, RoleSet.of(0), PermissionSet.below(4), false), List.of(answer.isDone(), answer.roles(), answer.permissions(), answer.stored().again()));
            Answer.Chosen refused = asked(store, second, SEND);
            same(Optional.of(Refusal.NONE), refused.refusal());
            thrown(NotDoneException.class, refused::roles);
            Answer.Obstacle way = store.obstacle(ward, 0, second, SEND, ALL);
            same(List.of(ObstacleKind.EXCLUSION, RoleSet.of(0), RoleSet.of(0, 1)), List.of(way.kind(), way.roles(), way.members()));
            same(0, store.explain(ward, 0, first, Images.READ_ID).grantingRole());
            that(store.close(ward, 0, first).isDone(), first);
            same(RoleSet.of(1), asked(store, second, SEND).roles());
            same(RoleSet.of(1), store.show(ward, 0, second).roles());
            List<Window> open = store.sessions(ward);
            same(List.of(0L, second, "first " + ward, 0L), List.of(open.get(0).user(), open.get(0).window(), open.get(0).host(), open.get(0).was()));
            that(open.size() == 1 && Duration.between(open.get(0).at(), Instant.now()).abs().toMinutes() < 5, open);
            same(Optional.of(Refusal.CLOSED), asked(store, first, READ_ID).refusal());
        });
    }

    public void theAimsReachTheKitInTheirOrder() throws Exception {
        with(store -> {
            String three = ward + "3";
            that(store.create(three, new Images(1, 3, 4).assign(0, 0).assign(0, 1).assign(0, 2).grant(0, 0, 2).grant(1, 1, 3).grant(2, 1, 2).policy()).isDone(), three);
            long window = store.open(three, 0).window();
            PermissionSet lower = PermissionSet.of(0);
            PermissionSet upper = PermissionSet.below(4);
            same(RoleSet.of(0, 1), store.ask(three, 0, window, lower, upper, Aim.MOST, Aim.ANY).roles());
            same(RoleSet.of(0, 1, 2), store.ask(three, 0, window, lower, upper, Aim.MOST, Aim.MOST).roles());
            UUID token = UUID.randomUUID();
            same(RoleSet.of(0), store.ask(three, 0, window, lower, upper, Aim.FEWEST, Aim.MOST, token).roles());
            that(store.ask(three, 0, window, lower, upper, Aim.FEWEST, Aim.MOST, token).stored().again(), token);
        });
    }

    public void aRepeatedTokenIsToldTheRecord() throws Exception {
        with(store -> {
            UUID token = UUID.randomUUID();
            Answer.Opened opened = store.open(ward, 0, token);
            Answer.Opened again = store.open(ward, 0, token);
            same(List.of(opened.window(), true, token), List.of(again.window(), again.stored().again(), again.stored().token()));
            Answer.Chosen answer = asked(store, opened.window(), READ_ID);
            UUID made = answer.stored().token();
            Answer.Chosen repeated = store.shortAsk(ward, 0, opened.window(), READ_ID, ALL, made);
            same(List.of(true, answer.roles(), answer.stored().order()), List.of(repeated.stored().again(), repeated.roles(), repeated.stored().order()));
            same(Optional.of(Refusal.TOKEN), store.shortAsk(ward, 0, opened.window(), SEND, ALL, made).refusal());
            that(asked(store, opened.window(), PermissionSet.of(1)).isDone(), answer);
            same(Optional.of(Refusal.OVERTAKEN), store.shortAsk(ward, 0, opened.window(), READ_ID, ALL, made).refusal());
            UUID closing = UUID.randomUUID();
            that(store.close(ward, 0, opened.window(), closing).isDone() && store.close(ward, 0, opened.window(), closing).stored().again(), closing);
            same(1L, answer.stored().version());
        });
    }

    public void theJournalReplaysAndAnExportIsItsLedger() throws Exception {
        with(store -> {
            long window = store.open(ward, 0).window();
            asked(store, window, READ_ID);
            List<JournalEntry> entries = store.journal(ward);
            JournalEntry last = entries.get(entries.size() - 1);
            same(List.of("short ask", 0L, 0L, window, "first " + ward), List.of(last.call(), last.user(), last.returned(), last.window(), last.host()));
            that(last.token().isPresent() && last.version() == 1 && last.turn() == 0 && last.answer().length == 40, last);
            byte[] bounds = new byte[64];
            bounds[0] = 1;
            bounds[32] = 31;
            same(bounds, last.arguments());
            same(List.of("open", 0), List.of(entries.get(entries.size() - 2).call(), entries.get(entries.size() - 2).answer().length));
            List<JournalEntry> part = store.journalFrom(ward, 0, last.order(), 5);
            same(List.of(1, last.order(), last.token()), List.of(part.size(), part.get(0).order(), part.get(0).token()));
            same(1, store.journalFrom(ward, 0, 0, 1).size());
            Answer.Verified verified = store.verify(ward);
            that(verified.isDone() && verified.report().differences() == 0 && verified.report().calls() >= 2 && verified.report().words().isEmpty(), verified);
            Export export = store.export(ward);
            same(POLICY, export.policy());
            Ledger own = POLICY.newLedger();
            own.open(POLICY, 0);
            own.session(POLICY, 0, 0).shortAsk(READ_ID, ALL);
            same(own.bytes(), export.ledger().bytes());
            that(store.create(ward + "x", POLICY, export.ledger().bytes()).isDone(), ward);
            same(own.bytes(), store.export(ward + "x").ledger().bytes());
            that(store.create(ward + "y", POLICY, own.narrow(POLICY).ledger().bytes()).isDone(), ward);
            same(own.bytes(), store.export(ward + "y").ledger().bytes());
            same(Optional.of(Refusal.LEDGER), store.create(ward + "z", POLICY, new byte[3]).refusal());
        });
    }

    public void aPolicyThatStopsSomebodyIsRefusedOrClosesWindows() throws Exception {
        with(store -> {
            long window = store.open(ward, 0).window();
            asked(store, window, READ_ID);
            Policy less = new Images(1, 2, 5).assign(0, 1).grant(1, 1, 4).policy();
            Answer.Changed refused = store.policy(ward, less, GoOn.IF_NONE);
            same(List.of(Optional.of(Refusal.STOPS), UserSet.of(0)), List.of(refused.refusal(), refused.stopped()));
            thrown(NotDoneException.class, refused::version);
            Answer.Changed changed = store.policy(ward, less, GoOn.CLOSING);
            same(List.of(2L, UserSet.of(0)), List.of(changed.version(), changed.stopped()));
            List<PolicyVersion> versions = store.policies(ward);
            same(List.of(POLICY, less), versions.stream().map(PolicyVersion::policy).collect(Collectors.toList()));
            same(List.of(2L, "first " + ward), List.of(versions.get(1).version(), versions.get(1).host()));
            same(List.of(), store.sessions(ward));
            same(Optional.of(Refusal.CLOSED), asked(store, window, PermissionSet.of(1)).refusal());
            same(Optional.of(Refusal.LENGTH), store.policy(ward, Policy.of(new byte[0]), GoOn.REGARDLESS).refusal());
            that(store.policy(ward, new Images(2, 2, 5).policy(), GoOn.REGARDLESS).isDone(), ward);
            same(Optional.of(Refusal.SHRINKS), store.policy(ward, POLICY, GoOn.REGARDLESS).refusal());
        });
    }

    public void windowsOfAHostThatDiedAreTakenOverOrClosed() throws Exception {
        with(store -> {
            long window = store.open(ward, 0).window();
            asked(store, window, READ_ID);
            try (Store second = Store.connect(STORE, "second " + ward)) {
                List<Window> taken = second.adoptAll(ward, "first " + ward);
                same(List.of(1, window, "second " + ward), List.of(taken.size(), taken.get(0).was(), taken.get(0).host()));
                same(RoleSet.of(0), second.show(ward, 0, taken.get(0).window()).roles());
                same(Optional.of(Refusal.GONE), store.show(ward, 0, window).refusal());
                UUID token = UUID.randomUUID();
                Answer.Adopted third = store.adopt(ward, 0, taken.get(0).window(), token);
                same(RoleSet.of(0), third.roles());
                same(third.window(), store.adopt(ward, 0, taken.get(0).window(), token).window());
                that(third.window() != taken.get(0).window(), third);
                that(store.adopt(ward, 0, third.window()).isDone(), third);
                same(1L, second.release(ward, "first " + ward).extra());
                same(List.of(), second.sessions(ward));
            }
        });
    }

    public void wardsCutAndWhatIsNotThere() throws Exception {
        with(store -> {
            that(store.wards().stream().filter(one -> one.name().equals(ward)).map(Ward::version).collect(Collectors.toList()).equals(List.of(1L)), ward);
            same(Optional.of(Refusal.WARD), store.create(ward, POLICY).refusal());
            same(Optional.of(Refusal.WARD), store.open("elsewhere", 0).refusal());
            same(Optional.of(Refusal.PERSON), store.open(ward, 1).refusal());
            same(Optional.of(Refusal.PERSON), store.open(ward, -1).refusal());
            store.open(ward, 0);
            that(store.cut(ward, 0).isDone() && store.verify(ward).isDone(), ward);
            same(Optional.of(Refusal.PERMISSION), store.explain(ward, 0, store.sessions(ward).get(0).window(), 256).refusal());
            for (Check.Code code : List.<Check.Code>of(() -> store.sessions("elsewhere"), () -> store.policies("elsewhere"),
                    () -> store.journal("elsewhere"), () -> store.journalFrom("elsewhere", 0, 0, 1), () -> store.export("elsewhere"),
                    () -> store.adoptAll("elsewhere", "x"))) {
                same(Optional.of(Refusal.WARD), thrown(NotDoneException.class, code).answer().refusal());
            }
            same(Optional.of(Refusal.WARD), store.verify("elsewhere").refusal());
            same(Optional.of(Refusal.WARD), store.release("elsewhere", "x").refusal());
        });
    }

    public void namesInEveryScript() throws Exception {
        with(store -> {
            String name = "Zürich 病棟 \uD83C\uDFE5 " + UUID.randomUUID().toString().substring(0, 8);
            that(store.create(name, POLICY).isDone() && store.open(name, 0).isDone(), name);
            that(store.wards().stream().anyMatch(one -> one.name().equals(name)), store.wards());
        });
    }

    public void aVerifyIsFollowedAndEnded() throws Exception {
        with(store -> {
            for (int round = 0; round < 520; round++) {
                store.close(ward, 0, store.open(ward, 0).window());
            }
            List<Long> steps = new ArrayList<>();
            Answer.Verified ended = store.verify(ward, new Watcher() {
                @Override
                public boolean step(Report soFar) {
                    steps.add(soFar.calls());
                    return false;
                }
            });
            same(List.of(Optional.of(Refusal.ENDED), 1), List.of(ended.refusal(), steps.size()));
            Answer.Verified whole = store.verify(ward, new Watcher() { });
            that(whole.isDone() && whole.report().calls() >= 1040, whole.report());
            same(1040L, store.journal(ward).stream().filter(one -> one.call().equals("open") || one.call().equals("close")).count());
        });
    }

    public void whatAWatcherThrowsIsThrownByTheVerify() throws Exception {
        with(store -> {
            for (int round = 0; round < 520; round++) {
                store.close(ward, 0, store.open(ward, 0).window());
            }
            UnsupportedOperationException seen = thrown(UnsupportedOperationException.class, () -> store.verify(ward, new Watcher() {
                @Override
                public boolean step(Report soFar) {
                    throw new UnsupportedOperationException("here");
                }
            }));
            same("here", seen.getMessage());
            IllegalStateException nested = thrown(IllegalStateException.class, () -> store.verify(ward, new Watcher() {
                @Override
                public boolean step(Report soFar) {
                    return store.wards().isEmpty();
                }
            }));
            that(nested.getMessage().contains("watcher"), nested);
            thrown(IllegalStateException.class, () -> store.verify(ward, new Watcher() {
                @Override
                public boolean step(Report soFar) {
                    store.close();
                    return true;
                }
            }));
            that(store.open(ward, 0).isDone(), ward);
        });
    }

    public void whatIsThrown() throws Exception {
        with(store -> {
            long window = store.open(ward, 0).window();
            int entries = store.journal(ward).size();
            for (Check.Code code : List.<Check.Code>of(() -> store.open(null, 0), () -> store.open(ward, 0, null), () -> store.create(ward, null),
                    () -> store.create(ward, POLICY, null), () -> store.shortAsk(ward, 0, window, null, ALL), () -> store.shortAsk(ward, 0, window, ALL, null),
                    () -> store.ask(ward, 0, window, ALL, ALL, null, Aim.ANY), () -> store.policy(ward, null, GoOn.IF_NONE), () -> store.policy(ward, POLICY, null),
                    () -> store.verify(ward, null), () -> store.verify(null), () -> store.sessions(null), () -> store.release(ward, null),
                    () -> store.adoptAll(null, "x"), () -> store.close(ward, 0, window, null), () -> Store.connect(null), () -> Store.connect(STORE, null))) {
                thrown(NullPointerException.class, code);
            }
            for (Check.Code code : List.<Check.Code>of(() -> store.open("a\0b", 0), () -> store.open("x".repeat(64), 0), () -> store.create("", POLICY),
                    () -> store.open("\uD800", 0), () -> Store.connect(STORE, ""), () -> Store.connect(STORE, "x".repeat(64)),
                    () -> Store.connect("nowhere:x"), () -> Store.connect(""), () -> Store.connect(STORE, "h", 0))) {
                thrown(IllegalArgumentException.class, code);
            }
            same(entries, store.journal(ward).size());
        });
    }

    public void aClosedStoreIsClosedAndMayBeClosedAgain() throws Exception {
        Store[] kept = new Store[1];
        with(store -> {
            kept[0] = store;
            store.open(ward, 0);
        });
        kept[0].close();
        for (Check.Code code : List.<Check.Code>of(() -> kept[0].open(ward, 0), () -> kept[0].wards(), kept[0]::make, () -> kept[0].verify(ward),
                () -> kept[0].sessions(ward), () -> kept[0].export(ward), () -> kept[0].policy(ward, POLICY, GoOn.IF_NONE))) {
            that(thrown(IllegalStateException.class, code).getMessage().contains("closed"), kept[0]);
        }
        kept[0].close();
    }

    public void noTablesYetThenAnotherStorage() throws Exception {
        Path folder = Files.createTempDirectory("store");
        String name = "sqlite:" + folder.resolve("new.db");
        try (Store store = Store.connect(name)) {
            that(!store.hasTables(), store);
            thrown(IllegalStateException.class, store::wards);
            store.make();
            that(store.hasTables() && store.wards().isEmpty(), store);
            store.make();
        }
        try (Store store = Store.connect(name)) {
            that(store.hasTables() && store.host().length() < 64, store.host());
        }
        StoreException failed = thrown(StoreException.class, () -> Store.connect("sqlite:" + folder.resolve("no/such/folder.db")));
        same(List.of(StoreException.Failure.FAILED, Optional.empty()), List.of(failed.failure(), failed.token()));
        that(failed.getMessage().startsWith("connect: storage failed") && failed.getMessage().length() > 40, failed);
        thrown(StoreException.class, () -> Store.connect("postgresql://nobody@/nothing?host=/nowhere&connect_timeout=1"));
        try (Stream<Path> files = Files.list(folder)) {
            for (Path file : files.collect(Collectors.toList())) {
                Files.delete(file);
            }
        }
        Files.delete(folder);
    }

    /** A line changed behind the store's back; tests/java.sh names a program that does it. */
    public void aDamagedLineIsThrownFoundAndMended() throws Exception {
        with(store -> {
            long window = store.open(ward, 0).window();
            same(0, new ProcessBuilder(System.getProperty("nutrameza.damage"), STORE, ward).inheritIO().start().waitFor());
            StoreException damaged = thrown(StoreException.class, () -> asked(store, window, READ_ID));
            same(List.of(StoreException.Failure.DAMAGED, 1L), List.of(damaged.failure(), damaged.extra()));
            that(damaged.token().isPresent() && damaged.getMessage().contains("user 0"), damaged);
            same(Optional.empty(), thrown(StoreException.class, () -> store.show(ward, 0, window)).token());
            List<Finding> found = new ArrayList<>();
            Watcher watcher = new Watcher() {
                @Override
                public void found(Finding finding) {
                    found.add(finding);
                }
            };
            Answer.Verified verified = store.verify(ward, watcher);
            same(Optional.of(Refusal.DAMAGED), verified.refusal());
            that(verified.report().differences() > 0 && !verified.report().words().isEmpty(), verified.report());
            that(found.size() > 0 && !found.get(0).incident() && !found.get(0).words().isEmpty() && found.get(0).user() == 0, found);
            thrown(ArithmeticException.class, () -> store.verify(ward, new Watcher() {
                @Override
                public void found(Finding finding) {
                    throw new ArithmeticException();
                }
            }));
            same(Optional.of(Refusal.DAMAGED), store.cut(ward, 0).refusal());
            same(1L, store.mend(ward, 0).extra());
            same(0L, store.mend(ward, 0).extra());
            same(RoleSet.of(0), asked(store, window, READ_ID).roles());
            found.clear();
            same(1L, store.verify(ward, watcher).report().incidents());
            that(found.size() == 1 && found.get(0).incident(), found);
        });
    }
}
