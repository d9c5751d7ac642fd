package nutrameza.tests;

import static nutrameza.tests.Check.same;
import static nutrameza.tests.Check.that;

import java.util.ArrayList;
import java.util.List;
import java.util.Queue;
import java.util.Set;
import java.util.UUID;
import java.util.concurrent.ConcurrentHashMap;
import java.util.concurrent.ConcurrentLinkedQueue;
import java.util.concurrent.CountDownLatch;
import java.util.concurrent.CyclicBarrier;
import java.util.concurrent.atomic.AtomicInteger;
import nutrameza.Answer;
import nutrameza.PermissionSet;
import nutrameza.Policy;
import nutrameza.Refusal;
import nutrameza.Report;
import nutrameza.RoleSet;
import nutrameza.Store;
import nutrameza.Watcher;

/** Threads that call at once: two windows of one doctor, many threads on one store, a store closed while they call. */
public final class RaceTest {
    private static final PermissionSet ALL = PermissionSet.below(5);
    private static final int ROUNDS = Integer.getInteger("nutrameza.rounds", 60);

    private final String ward = "race " + UUID.randomUUID();
    private final Queue<Throwable> wrong = new ConcurrentLinkedQueue<>();

    /** Runs these at once; what one of them throws fails the test. */
    private void atOnce(List<Check.Code> all) throws Exception {
        List<Thread> threads = new ArrayList<>();
        for (Check.Code code : all) {
            threads.add(new Thread(() -> {
                try {
                    code.run();
                } catch (Throwable seen) {
                    wrong.add(seen);
                }
            }));
        }
        threads.forEach(Thread::start);
        for (Thread thread : threads) {
            thread.join();
        }
        for (Throwable seen : wrong) {
            throw new AssertionError(wrong.size() + " wrong, the first", seen);
        }
    }

    private Store connected(int handles, Policy policy) {
        Store store = Store.connect(StoreTest.STORE, "host " + ward, handles);
        store.make();
        that(store.create(ward, policy).isDone(), ward);
        return store;
    }

    /** One asks for the doctor's role in one window, the other for the manager's in another. */
    public void twoWindowsOfOneDoctorNeverBoth() throws Exception {
        AtomicInteger[] had = {new AtomicInteger(), new AtomicInteger()};
        try (Store store = connected(4, Images.ward().policy())) {
            CyclicBarrier barrier = new CyclicBarrier(2);
            AtomicInteger[] now = {new AtomicInteger(), new AtomicInteger()};
            List<Check.Code> both = new ArrayList<>();
            for (int which = 0; which < 2; which++) {
                int own = which;
                PermissionSet lower = PermissionSet.of(own == 0 ? Images.PRESCRIBE : Images.SEND_DATA);
                both.add(() -> {
                    for (int round = 0; round < ROUNDS; round++) {
                        long window = store.open(ward, 0).window();
                        barrier.await();
                        Answer.Chosen answer = store.shortAsk(ward, 0, window, lower, ALL);
                        that(answer.isDone() ? answer.roles().equals(RoleSet.of(own)) : answer.refusedBy(Refusal.NONE), answer);
                        now[own].set(answer.isDone() ? 1 : 0);
                        had[own].addAndGet(now[own].get());
                        barrier.await();
                        that(now[0].get() + now[1].get() == 1, now[0] + " and " + now[1]);
                        barrier.await();
                        that(store.close(ward, 0, window).isDone(), window);
                        barrier.await();
                    }
                });
            }
            atOnce(both);
            that(store.verify(ward).isDone(), ward);
        }
        same(ROUNDS, had[0].get() + had[1].get());
        System.out.println("        Doctor " + had[0] + " times, Data_Manager " + had[1]);
    }

    private static Policy sixteen() {
        Images images = new Images(16, 2, 5).grant(0, 0, 1, 2, 3).grant(1, 1, 4).exclude(1, 2, 0, 1);
        for (int user = 0; user < 16; user++) {
            images.assign(user, 0).assign(user, 1);
        }
        return images.policy();
    }

    /** More threads than handles, each user's windows on their own. */
    private void manyThreads(int handles) throws Exception {
        Set<Long> windows = ConcurrentHashMap.newKeySet();
        try (Store store = connected(handles, sixteen())) {
            List<Check.Code> all = new ArrayList<>();
            for (int thread = 0; thread < 12; thread++) {
                long user = thread;
                all.add(() -> {
                    for (int round = 0; round < ROUNDS / 4; round++) {
                        long window = store.open(ward, user).window();
                        that(windows.add(1000 * window + user), window);
                        Answer.Chosen answer = store.shortAsk(ward, user, window, PermissionSet.of(2), ALL);
                        same(RoleSet.of(0), answer.roles());
                        same(RoleSet.of(0), store.show(ward, user, window).roles());
                        that(store.close(ward, user, window).isDone(), window);
                    }
                });
            }
            atOnce(all);
            same(12 * (ROUNDS / 4), windows.size());
            same(0L, store.verify(ward).report().differences());
            same(3L * windows.size(), store.journal(ward).stream().filter(one -> one.order() > 0 && !one.call().equals("import")).count());
            same(List.of(), store.sessions(ward));
        }
    }

    public void manyThreadsOnOneStore() throws Exception {
        manyThreads(6);
    }

    public void manyThreadsOnOneHandle() throws Exception {
        manyThreads(1);
    }

    /** Those that began are answered, those that come later are told so, and close returns when all are through. */
    public void aStoreClosedWhileTheyCall() throws Exception {
        Store store = connected(3, sixteen());
        CountDownLatch under = new CountDownLatch(6);
        AtomicInteger told = new AtomicInteger();
        List<Check.Code> all = new ArrayList<>();
        for (int thread = 0; thread < 6; thread++) {
            long user = thread;
            all.add(() -> {
                try {
                    for (;;) {
                        store.close(ward, user, store.open(ward, user).window());
                        under.countDown();
                    }
                } catch (IllegalStateException closed) {
                    that(closed.getMessage().contains("closed"), closed);
                    told.incrementAndGet();
                }
            });
        }
        all.add(() -> {
            under.await();
            store.close();
        });
        atOnce(all);
        same(6, told.get());
    }

    /** Close waits for a verify that another thread has under way. */
    public void closeWaitsForACallUnderWay() throws Exception {
        Store store = connected(2, Images.ward().policy());
        for (int round = 0; round < 520; round++) {
            store.close(ward, 0, store.open(ward, 0).window());
        }
        CountDownLatch within = new CountDownLatch(1);
        AtomicInteger ended = new AtomicInteger();
        atOnce(List.of(() -> {
            Answer.Verified verified = store.verify(ward, new Watcher() {
                @Override
                public boolean step(Report soFar) {
                    within.countDown();
                    try {
                        Thread.sleep(150);
                    } catch (InterruptedException wrongly) {
                        throw new IllegalStateException(wrongly);
                    }
                    ended.incrementAndGet();
                    return true;
                }
            });
            that(verified.isDone(), verified);
        }, () -> {
            within.await();
            store.close();
            same(1, ended.get());
        }));
    }
}
