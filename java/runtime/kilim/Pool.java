package kilim;

import java.util.concurrent.ThreadLocalRandom;
import java.util.concurrent.locks.LockSupport;

/** The workers together: the fibers for which a ring has no room, and when all is at rest. */
final class Pool {
    private static final long STOP_NANOS = 100_000;
    private static final long LOOK_AGAIN_MILLIS = 1;

    /** All workers, by their seats. */
    static Worker[] workers;

    private static final Object SHARED = new Object();
    private static volatile Fiber sharedFirst;
    private static Fiber sharedLast;

    private static final Object REST = new Object();
    private static volatile int resting;
    private static boolean over;

    private Pool() {}

    /** For tests: a thread stops here at times, so that others overtake it. */
    static void stop() {
        if (Settings.SHAKEN) {
            int chance = ThreadLocalRandom.current().nextInt(8);
            if (chance == 0) {
                LockSupport.parkNanos(STOP_NANOS);
            } else if (chance < 4) {
                Thread.yield();
            }
        }
    }

    /** What a worker has in {@code woken} is ready, for any worker. */
    static void share(Worker worker) {
        synchronized (SHARED) {
            Fiber fiber = worker.woken;
            if (sharedLast == null) {
                sharedFirst = fiber;
            } else {
                sharedLast.next = fiber;
            }
            sharedLast = fiber;
            worker.woken = null;
        }
    }

    /** The first fiber that was shared, or null. */
    static Fiber shared() {
        if (sharedFirst == null) {
            return null;
        }
        synchronized (SHARED) {
            Fiber fiber = sharedFirst;
            if (fiber != null) {
                sharedFirst = fiber.next;
                if (sharedFirst == null) {
                    sharedLast = null;
                }
            }
            return fiber;
        }
    }

    /** So many fibers are ready at one worker: where that is more than it runs next, one that rests is called. */
    static void call(long waiting) {
        if ((waiting > 1 || Settings.SHAKEN) && resting > 0) {
            synchronized (REST) {
                REST.notify();
            }
        }
    }

    /**
     * A worker that found no fiber rests a while. Fibers are made ready by workers alone, so where all rest and nothing is ready
     * nothing will ever be.
     *
     * @return whether it has to look again; else all is at rest
     */
    static boolean rest() throws InterruptedException {
        synchronized (REST) {
            if (over) {
                return false;
            }
            resting++;
            boolean some = sharedFirst != null;
            for (Worker worker : workers) {
                some |= worker.waiting() > 0;
            }
            if (!some && resting == Settings.WORKERS) {
                over = true;
                REST.notifyAll();
                return false;
            }
            if (!some) {
                REST.wait(LOOK_AGAIN_MILLIS);
            }
            if (over) {
                return false;
            }
            resting--;
            return true;
        }
    }
}
