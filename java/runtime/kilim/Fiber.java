package kilim;

import java.util.Arrays;

/**
 * What a woven method gets as its last argument. Where it pauses, each of its frames saves here what is live in it, and returns;
 * when it goes on, each is called again and restores it. The public members are those that woven code calls.
 *
 * <p>What is saved last is restored first, over all levels: the innermost frame saves first, and the outermost one restores first.
 * So two stacks, one of numbers and one of references, serve all levels, and a level has but its place and its receiver.
 */
public final class Fiber {
    private static final int FEW = 4;
    private static final long[] NO_NUMBERS = {};
    private static final Object[] NO_REFERENCES = {};

    private int level;
    private int[] places = new int[FEW];
    private Object[] receivers = new Object[FEW];
    private long[] numbers = NO_NUMBERS;
    private int numberCount;
    private Object[] references = NO_REFERENCES;
    private int referenceCount;

    /** Whether frames are being called again, up to the call that paused. */
    boolean rewinding;

    /** Whether frames are returning since a call paused. */
    boolean pausing;

    /** Whether it paused to put. */
    boolean putting;

    private boolean begun;

    /** The number of its task. */
    final int task;

    /** The task itself; null for the main one until it is made. */
    Task body;

    /** How many mailboxes it has made. */
    int boxes;

    /** The mailbox at which it waits, where it paused for that. */
    Mailbox waits;

    /** The next one in the list in which it stands. */
    Fiber next;

    Fiber(int task, Task body) {
        this.task = task;
        this.body = body;
    }

    /**
     * Where the frame goes on.
     *
     * @return the number of the call that paused, from 1, or 0 where the method begins anew
     */
    public int pc() {
        return rewinding ? places[level] : 0;
    }

    /**
     * Goes down to the frame of a call.
     *
     * @return the fiber
     */
    public Fiber down() {
        level++;
        return this;
    }

    /**
     * Comes up from a call.
     *
     * @return 1 where the call paused, else 0
     */
    public int up() {
        level--;
        return pausing ? 1 : 0;
    }

    /**
     * Saves a number.
     *
     * @param value the number
     * @param fiber the fiber
     */
    public static void saveI(int value, Fiber fiber) {
        fiber.push(value);
    }

    /**
     * Saves a number.
     *
     * @param value the number
     * @param fiber the fiber
     */
    public static void saveJ(long value, Fiber fiber) {
        fiber.push(value);
    }

    /**
     * Saves a reference.
     *
     * @param value the reference
     * @param fiber the fiber
     */
    public static void saveA(Object value, Fiber fiber) {
        int count = fiber.referenceCount;
        if (count == fiber.references.length) {
            fiber.references = Arrays.copyOf(fiber.references, count == 0 ? FEW : 2 * count);
        }
        fiber.references[count] = value;
        fiber.referenceCount = count + 1;
    }

    /**
     * Says where the frame paused.
     *
     * @param place the number of the call, from 1
     * @param receiver the object whose method the frame runs, or null for a static one
     * @param fiber the fiber
     */
    public static void place(int place, Object receiver, Fiber fiber) {
        fiber.record(place, receiver);
    }

    /**
     * Restores a number.
     *
     * @return the one that was saved last
     */
    public int restI() {
        return (int) numbers[--numberCount];
    }

    /**
     * Restores a number.
     *
     * @return the one that was saved last
     */
    public long restJ() {
        return numbers[--numberCount];
    }

    /**
     * Restores a reference.
     *
     * @return the one that was saved last
     */
    public Object restA() {
        int count = --referenceCount;
        Object value = references[count];
        references[count] = null;
        return value;
    }

    /**
     * The receiver of the call at which the frame paused.
     *
     * @return the receiver, or null for a static method
     */
    public Object receiver() {
        return receivers[level + 1];
    }

    private void push(long value) {
        int count = numberCount;
        if (count == numbers.length) {
            numbers = Arrays.copyOf(numbers, count == 0 ? FEW : 2 * count);
        }
        numbers[count] = value;
        numberCount = count + 1;
    }

    private void record(int place, Object receiver) {
        int at = level;
        if (at >= places.length) {
            places = Arrays.copyOf(places, 2 * at);
            receivers = Arrays.copyOf(receivers, 2 * at);
        }
        places[at] = place;
        receivers[at] = receiver;
    }

    /** A call of the runtime pauses: for a message of a mailbox, or for room in it; or, for null, to let others go on. */
    void pause(Mailbox box, boolean puts) {
        record(0, box);
        waits = box;
        putting = puts;
        pausing = true;
    }

    /** It is about to run, for the first time or again. */
    void enter() {
        level = 0;
        pausing = false;
        rewinding = begun;
        begun = true;
    }
}
