package nutrameza;

import java.util.ArrayDeque;
import java.util.HashSet;
import java.util.Set;
import java.util.concurrent.locks.Condition;
import java.util.concurrent.locks.ReentrantLock;
import java.util.function.LongFunction;

/**
 * The handles of a store, each in one call at a time. A call takes one that is free, the last one first; where there is
 * none a further one is connected, up to the most that there may be; then it waits.
 */
final class Handles {
    private final byte[] name;
    private final byte[] host;
    private final int most;
    private final ReentrantLock lock = new ReentrantLock();
    private final Condition changed = lock.newCondition();
    private final ArrayDeque<Long> free = new ArrayDeque<>();
    /** The threads that have a handle: one each, since no call is made within a call. */
    private final Set<Thread> calling = new HashSet<>();
    private int connected;
    private boolean tables;
    private boolean closed;

    /** Connects a first handle; where there are no tables yet it stays the only one until they are made. */
    Handles(byte[] name, byte[] host, int most) {
        this.name = name;
        this.host = host;
        this.most = most;
        tables = true;
        free.push(connect(true));
        connected = 1;
    }

    /** A new handle; throws where it can't be used. */
    private long connect(boolean first) {
        long[] handle = new long[1];
        long returned = StoreNative.connect(name, host, handle);
        if (first && returned == Store.NO_TABLES) {
            tables = false;
            return handle[0];
        }
        try {
            Store.thrown("connect", returned, handle[0], null);
        } catch (RuntimeException refused) {
            StoreNative.disconnect(handle[0]);
            throw refused;
        }
        return handle[0];
    }

    boolean hasTables() {
        lock.lock();
        try {
            return tables;
        } finally {
            lock.unlock();
        }
    }

    /** A call with a handle; before the tables are made only the one that makes them. */
    <T> T call(boolean makes, LongFunction<T> call) {
        long handle = taken(makes);
        try {
            return call.apply(handle);
        } finally {
            left(handle);
        }
    }

    /** Makes the tables, and lets every other call be made from here on. */
    void make(LongFunction<Void> call) {
        call(true, call);
        lock.lock();
        try {
            tables = true;
            changed.signalAll();
        } finally {
            lock.unlock();
        }
    }

    private long taken(boolean makes) {
        lock.lock();
        try {
            enter(makes);
            while (free.isEmpty() && connected >= (tables ? most : 1)) {
                changed.awaitUninterruptibly();
                enter(makes);
            }
            calling.add(Thread.currentThread());
            if (!free.isEmpty()) {
                return free.pop();
            }
            connected++;
        } finally {
            lock.unlock();
        }
        return further();
    }

    /** Throws where the store takes no call, or not this one. */
    private void enter(boolean makes) {
        if (calling.contains(Thread.currentThread())) {
            throw new IllegalStateException("a store is not called from within its own watcher");
        }
        if (closed) {
            throw new IllegalStateException("the store is closed");
        }
        if (!tables && !makes) {
            throw new IllegalStateException("the store has no tables yet: make makes them");
        }
    }

    /** Connects outside of the lock, since that may take its time. */
    private long further() {
        long handle = 0;
        try {
            handle = connect(false);
        } finally {
            if (handle == 0) {
                left(null);
            }
        }
        return handle;
    }

    /** The calling thread has its handle no more: it is free, or it was none. */
    private void left(Long handle) {
        lock.lock();
        try {
            calling.remove(Thread.currentThread());
            if (handle == null) {
                connected--;
            } else {
                free.push(handle);
            }
            changed.signalAll();
        } finally {
            lock.unlock();
        }
    }

    /** Takes no call from here on, waits for those that are under way, and disconnects. */
    void close() {
        lock.lock();
        try {
            if (calling.contains(Thread.currentThread())) {
                throw new IllegalStateException("a store is not closed from within its own watcher");
            }
            closed = true;
            changed.signalAll();
            while (!calling.isEmpty()) {
                changed.awaitUninterruptibly();
            }
            while (!free.isEmpty()) {
                StoreNative.disconnect(free.pop());
            }
        } finally {
            lock.unlock();
        }
    }
}
