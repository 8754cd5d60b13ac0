package kilim;

import java.lang.reflect.Constructor;
import java.lang.reflect.InvocationTargetException;
import java.util.HashMap;
import java.util.Map;
import java.util.concurrent.atomic.AtomicLong;
import java.util.concurrent.atomic.AtomicReferenceArray;

/**
 * A platform thread that runs fibers, each until it pauses or ends.
 *
 * <p>A worker that is alone has a list of the fibers that are ready. Of several each has a ring, at whose back it alone appends and
 * from whose front all take; what finds no room there goes to a queue that all share.
 */
final class Worker extends Thread {
    private static final int RING = 256;
    private static final int SHARED_EACH = 64;
    private static final int LOOKS = 20;
    private static final int FRAMES = 24;
    private static final Map<Class<?>, String> CAUSES = new HashMap<Class<?>, String>();

    static {
        CAUSES.put(NullPointerException.class, "null");
        CAUSES.put(IndexOutOfBoundsException.class, "index");
        CAUSES.put(ArrayIndexOutOfBoundsException.class, "index");
        CAUSES.put(StringIndexOutOfBoundsException.class, "index");
        CAUSES.put(NegativeArraySizeException.class, "size");
        CAUSES.put(ClassCastException.class, "cast");
        CAUSES.put(ArrayStoreException.class, "store");
        CAUSES.put(ArithmeticException.class, "zero");
        CAUSES.put(StackOverflowError.class, "depth");
    }

    /** The fiber that runs here. */
    Fiber now;

    /** A fiber that was started, or that a put took out of its mailbox, and that isn't ready yet. */
    Fiber woken;

    /** What is written down here; null where no journal is kept. */
    final Journal journal = Settings.JOURNAL ? new Journal() : null;

    /** How many tasks ended here. */
    int ended;

    private final int seat;
    private final Class<?> main;
    private final Text line = new Text();

    private Fiber first;
    private Fiber last;
    private final AtomicReferenceArray<Fiber> ring = new AtomicReferenceArray<Fiber>(Settings.ALONE ? 1 : RING);
    private final AtomicLong front = new AtomicLong();
    private volatile long back;
    private int turns;

    Worker(int seat, Class<?> main) {
        super(null, null, "kilim-" + seat, Settings.STACK);
        this.seat = seat;
        this.main = main;
    }

    /** The worker of this thread. */
    static Worker current() {
        return (Worker) Thread.currentThread();
    }

    /** How many fibers are ready here, among several workers. */
    long waiting() {
        return back - front.get();
    }

    /** A fiber is ready, behind all others. */
    void ready(Fiber fiber) {
        woken = fiber;
        wake();
    }

    /**
     * The fiber in {@code woken} is ready, behind all others. No call stands between the first change that counts and the last, so
     * the end of the stack can come before all of it or behind it, and the fiber isn't lost and isn't twice there.
     */
    void wake() {
        Fiber fiber = woken;
        fiber.next = null;
        if (Settings.ALONE) {
            if (last == null) {
                first = fiber;
            } else {
                last.next = fiber;
            }
            last = fiber;
            woken = null;
            return;
        }
        long at = back;
        long waiting = at - front.get();
        if (waiting >= RING) {
            Pool.share(this);
        } else {
            ring.lazySet((int) at & RING - 1, fiber);
            back = at + 1;
            woken = null;
        }
        Pool.call(waiting + 1);
    }

    /** The first fiber of this worker's ring, asked by any worker; or null. */
    private Fiber poll() {
        while (true) {
            long at = front.get();
            if (at >= back) {
                return null;
            }
            // this place is written again only when the front has passed it, and then the exchange fails
            Fiber fiber = ring.get((int) at & RING - 1);
            if (front.compareAndSet(at, at + 1)) {
                return fiber;
            }
        }
    }

    /** The first fiber of another worker, half of whose ring comes here too; or null. */
    private Fiber steal() {
        for (int i = 1; i < Settings.WORKERS; i++) {
            Worker other = Pool.workers[(seat + i) % Settings.WORKERS];
            Fiber fiber = other.poll();
            if (fiber == null) {
                continue;
            }
            for (long more = other.waiting() / 2; more > 0; more--) {
                Fiber another = other.poll();
                if (another == null) {
                    break;
                }
                ready(another);
            }
            return fiber;
        }
        return null;
    }

    /** The next fiber to run; null where all workers are at rest. */
    private Fiber next() throws InterruptedException {
        if (Settings.ALONE) {
            Fiber fiber = first;
            if (fiber != null) {
                first = fiber.next;
                if (first == null) {
                    last = null;
                }
            }
            return fiber;
        }
        while (true) {
            Fiber fiber = ++turns % SHARED_EACH == 0 ? Pool.shared() : null;
            if (fiber == null) {
                fiber = poll();
            }
            if (fiber == null) {
                fiber = Pool.shared();
            }
            for (int looks = 0; fiber == null && looks < LOOKS; looks++) {
                if (looks > 0) {
                    Thread.yield();
                }
                fiber = steal();
            }
            if (fiber != null) {
                return fiber;
            }
            if (!Pool.rest()) {
                return null;
            }
        }
    }

    @Override
    public void run() {
        try {
            for (Fiber fiber = next(); fiber != null; fiber = next()) {
                lend(fiber);
            }
        } catch (Throwable fault) {
            Run.stop(fault, Run.FAULT);
        }
    }

    /** Runs a fiber until it pauses or ends. */
    private void lend(Fiber fiber) {
        now = fiber;
        Pool.stop();
        String cause = "done";
        fiber.enter();
        try {
            if (fiber.body == null) {
                fiber.body = make();
            }
            fiber.body.execute(fiber);
        } catch (Throwable thrown) {
            cause = cause(thrown);
            fiber.pausing = false;
        }
        if (woken != null) {
            wake();
        }
        if (fiber.pausing) {
            Mailbox box = fiber.waits;
            Pool.stop();
            if (box == null || !box.park(fiber)) {
                ready(fiber);
            }
        } else {
            end(fiber, cause);
        }
    }

    /** The main task. Its constructor runs as the first work of its fiber. */
    private Task make() throws Throwable {
        Constructor<?> maker = main.getDeclaredConstructor();
        maker.setAccessible(true);
        try {
            return (Task) maker.newInstance();
        } catch (InvocationTargetException thrown) {
            throw thrown.getCause();
        }
    }

    /** The word for what ended a task; where nothing that a task does throws it, the run is stopped. */
    private String cause(Throwable thrown) {
        if (thrown instanceof Ended) {
            return ((Ended) thrown).cause;
        }
        String cause = CAUSES.get(thrown.getClass());
        if (cause == null && isOfProgram(thrown)) {
            cause = "thrown";
        }
        if (cause == null) {
            Run.stop(thrown, thrown instanceof OutOfMemoryError ? Run.MEMORY : Run.REPORT);
        }
        return cause;
    }

    /** Whether a program throws it: an object of a class of its own, or of a class of Java that no instruction raises. */
    private boolean isOfProgram(Throwable thrown) {
        Class<?> kind = thrown.getClass();
        return kind == Throwable.class || kind == Exception.class || kind == RuntimeException.class
            || !(thrown instanceof Error) && kind.getClassLoader() == main.getClassLoader();
    }

    private void end(Fiber fiber, String cause) {
        ended++;
        if (Settings.JOURNAL) {
            journal.end(fiber.task, cause);
        }
        if (!cause.equals("done")) {
            Run.end(fiber.task, cause);
        }
        Tasks.ended(fiber);
    }

    /** Starts a task, as an act of the one that runs here. */
    void start(Task body) {
        if (Settings.JOURNAL) {
            journal.shape(body);
        }
        if (!Tasks.begin(body, this)) {
            throw new Ended("tasks");
        }
        Pool.stop();
        if (Settings.JOURNAL) {
            journal.start(now.task, woken.task);
        }
        wake();
    }

    /** An empty text, for the value of a print. */
    Text cleared() {
        line.clear();
        return line;
    }

    /** Prints a value, as an act of the task that runs here. */
    void print(Text value) {
        room();
        if (Settings.JOURNAL) {
            journal.print(now.task, value);
        }
        Run.print(now.task, value);
    }

    /** Reaches further down the stack than what follows will, so that its end comes before anything is done, or not at all. */
    static void room() {
        down(FRAMES);
    }

    private static int down(int frames) {
        return frames == 0 ? 0 : down(frames - 1) + 1;
    }
}
