package kilim;

import java.util.concurrent.atomic.AtomicIntegerFieldUpdater;

/**
 * A queue of messages, by which tasks speak with each other. It is a value: a message and a task may hold one, and several
 * tasks may have the same one. Whoever makes it names it, as {@code 0.1} for the second mailbox of the task 0.
 */
public final class Mailbox {
    private static final AtomicIntegerFieldUpdater<Mailbox> LOCK = AtomicIntegerFieldUpdater.newUpdater(Mailbox.class, "lock");
    private static final int FEW = 4;
    private static final int MANY = 64;
    private static final int SPINS = 50;

    /** The task that made it. */
    final int task;

    /** Its number among the mailboxes of that task. */
    final int number;

    private volatile int lock;
    private long puts;
    private long takes;

    /** A circle, whose length is a power of two, with {@code size} messages from {@code head} on; null where none came yet. */
    private Message[] queue;
    private int head;
    private int size;

    /** The fibers that wait here for a message, a list by their {@code next}. */
    private Fiber first;
    private Fiber last;

    /** What a mailbox with a bound has beside the rest; null for one without. */
    private static final class Bound {
        final int most;

        /** The fibers that wait here for room, a list by their {@code next}. */
        Fiber first;
        Fiber last;

        Bound(int most) {
            this.most = most;
        }
    }

    private final Bound bound;

    /** Makes an empty mailbox, into which any number of messages may be put. */
    public Mailbox() {
        Fiber maker = maker();
        task = maker.task;
        number = maker.boxes++;
        bound = null;
    }

    /**
     * Makes an empty mailbox with a bound: it is full where it holds as many messages.
     *
     * @param most the bound, at least 1
     */
    public Mailbox(int most) {
        Worker.room();
        Fiber maker = maker();
        task = maker.task;
        number = maker.boxes++;
        if (most < 1) {
            throw new NegativeArraySizeException();
        }
        bound = new Bound(most);
        if (Settings.JOURNAL) {
            Worker.current().journal.bound(task, this, most);
        }
    }

    private static Fiber maker() {
        Fiber maker = Worker.current().now;
        if (maker.boxes >= Settings.MOST_BOXES) {
            throw new Ended("boxes");
        }
        return maker;
    }

    /**
     * Gives a message, and all that hangs from it, away: it may not be used afterwards. It is the last in the queue. Where the mailbox
     * is full the task ends.
     *
     * @param message the root of a tree that isn't part of another one
     */
    public void put(@Free Message message) {
        if (message == null) {
            throw new NullPointerException();
        }
        if (!append(message, false)) {
            throw new Ended("full");
        }
    }

    /**
     * Gives a message, and all that hangs from it, away: it may not be used afterwards. It is the last in the queue. While the mailbox
     * is full the task pauses.
     *
     * @param message the root of a tree that isn't part of another one
     * @throws Pausable never: it says that the call may pause
     */
    public void putw(@Free Message message) throws Pausable {
        throw new Unwoven();
    }

    /**
     * The woven form of {@link #putw(Message)}.
     *
     * @param message the root of a tree; nothing where the call is made again, as the fiber kept it
     * @param fiber the fiber of the task
     * @throws Pausable never: it says that the call may pause
     */
    public void putw(@Free Message message, Fiber fiber) throws Pausable {
        Message given = message;
        if (fiber.rewinding) {
            fiber.rewinding = false;
            given = (Message) fiber.restA();
        } else if (message == null) {
            throw new NullPointerException();
        }
        if (!append(given, true)) {
            Fiber.saveA(given, fiber);
            fiber.pause(this, true);
        }
    }

    /** Appends a message, unless the mailbox is full; a task that doesn't wait ends then, while it is full. */
    private boolean append(Message message, boolean waits) {
        Worker worker = Worker.current();
        if (Settings.JOURNAL) {
            worker.journal.shape(message);
        }
        Pool.stop();
        long stamp = 0;
        long place;
        acquire();
        try {
            if (isFull()) {
                if (Settings.JOURNAL && !waits) {
                    worker.journal.stampEnd();
                }
                return false;
            }
            if (queue == null) {
                queue = new Message[FEW];
            } else if (size == queue.length) {
                grow();
            }
            if (Settings.JOURNAL) {
                stamp = worker.journal.stamp();
            }
            // from here on no call but in tests, and so no end of the stack, before the lock is given up
            place = puts++;
            if (Settings.SHAKEN) {
                Pool.stop();
            }
            queue[head + size++ & queue.length - 1] = message;
            Fiber woken = first;
            if (woken != null) {
                first = woken.next;
                if (first == null) {
                    last = null;
                }
                worker.woken = woken;
            }
        } finally {
            if (!Settings.ALONE) {
                lock = 0;
            }
        }
        Pool.stop();
        if (Settings.JOURNAL) {
            worker.journal.put(stamp, worker.now.task, this, place);
        }
        if (worker.woken != null) {
            worker.wake();
        }
        return true;
    }

    private boolean isFull() {
        return bound != null && size >= bound.most;
    }

    /**
     * Takes the first message. While there is none the task pauses.
     *
     * @return the root of a tree that is the caller's own
     * @throws Pausable never: it says that the call may pause
     */
    public Message get() throws Pausable {
        throw new Unwoven();
    }

    /**
     * The woven form of {@link #get()}.
     *
     * @param fiber the fiber of the task
     * @return the root of a tree that is the caller's own; null where the call pauses
     * @throws Pausable never: it says that the call may pause
     */
    public Message get(Fiber fiber) throws Pausable {
        fiber.rewinding = false;
        // a put that isn't seen here is seen when the fiber is parked
        Message message = size == 0 ? null : take(false);
        if (message == null) {
            fiber.pause(this, false);
        }
        return message;
    }

    /**
     * Takes the first message, where there is one.
     *
     * @return the root of a tree that is the caller's own, or null where the queue is empty
     */
    public Message getnb() {
        return take(true);
    }

    private Message take(boolean probe) {
        Worker worker = null;
        if (Settings.JOURNAL || bound != null) {
            worker = Worker.current();
            Worker.room();
        }
        Pool.stop();
        long stamp = 0;
        long place = 0;
        Message message = null;
        acquire();
        try {
            boolean some = size > 0;
            if (Settings.JOURNAL && (some || probe)) {
                stamp = worker.journal.stamp();
            }
            if (some) {
                place = takes++;
                message = queue[head];
                if (Settings.SHAKEN) {
                    Pool.stop();
                }
                queue[head] = null;
                head = head + 1 & queue.length - 1;
                if (--size == 0 && queue.length > MANY) {
                    queue = null;
                    head = 0;
                }
                if (bound != null && bound.first != null) {
                    worker.woken = bound.first;
                    bound.first = bound.first.next;
                    if (bound.first == null) {
                        bound.last = null;
                    }
                }
            }
        } finally {
            if (!Settings.ALONE) {
                lock = 0;
            }
        }
        if (Settings.JOURNAL && message != null) {
            worker.journal.take(stamp, worker.now.task, this, place);
        } else if (Settings.JOURNAL && probe) {
            worker.journal.empty(stamp, worker.now.task, this);
        }
        if (bound != null && worker.woken != null) {
            worker.wake();
        }
        return message;
    }

    private void grow() {
        Message[] more = new Message[2 * size];
        for (int i = 0; i < size; i++) {
            more[i] = queue[head + i & size - 1];
        }
        queue = more;
        head = 0;
    }

    /**
     * Has a fiber wait here, all of whose frames have returned, unless what it waits for has come meanwhile. Once it waits, another
     * worker may run it.
     *
     * @return whether it waits
     */
    boolean park(Fiber fiber) {
        acquire();
        boolean parks = fiber.putting ? isFull() : size == 0;
        Pool.stop();
        if (parks) {
            fiber.next = null;
            if (fiber.putting) {
                if (bound.last == null) {
                    bound.first = fiber;
                } else {
                    bound.last.next = fiber;
                }
                bound.last = fiber;
            } else {
                if (last == null) {
                    first = fiber;
                } else {
                    last.next = fiber;
                }
                last = fiber;
            }
        }
        if (!Settings.ALONE) {
            lock = 0;
        }
        return parks;
    }

    private void acquire() {
        if (Settings.ALONE) {
            return;
        }
        int spins = 0;
        while (lock != 0 || !LOCK.compareAndSet(this, 0, 1)) {
            if (++spins > SPINS) {
                Thread.yield();
            }
        }
    }
}
