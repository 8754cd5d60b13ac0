package kilim;

/**
 * A queue of messages, by which tasks speak with each other. It takes any number of messages, or as many as it was made for. It is a
 * value: a message and a task may hold one, and several tasks may have the same one. Whoever makes it names it, as {@code 0.1} for the
 * second mailbox of the task 0.
 *
 * <p>A call on a null mailbox ends the task, as {@code end null}. A cast of what comes to another class ends it, as {@code end cast}. An
 * end as {@code null}, {@code size} or {@code cast} is an exception of Java that nothing caught.
 */
public final class Mailbox {
    /** Makes an empty mailbox. The 1,001st of a task ends the task, as {@code end boxes}. */
    public Mailbox() {}

    /**
     * Makes an empty mailbox that is full where it holds that many messages. The journal says so, as {@code bound 0.0 4}.
     *
     * <p>A number below 1 ends the task, as {@code end size}. The 1,001st mailbox of a task ends the task, as {@code end boxes}.
     *
     * @param bound how many messages it holds, at least 1
     */
    public Mailbox(int bound) {}

    /**
     * Gives a message, and all that hangs from it, away: it may not be used afterwards. It is the last in the queue. It never waits.
     *
     * <p>A null ends the task, as {@code end null}; a message of more than 65,536 objects does, as {@code end large}; and so does a
     * mailbox that is full, as {@code end full}. They are looked at in this order.
     *
     * @param message the root of a tree that isn't part of another one
     */
    public void put(@Free Message message) {}

    /**
     * Gives a message away as {@link #put put} does, and waits while the mailbox is full: the task pauses, and goes on where a
     * message was taken and it is the first that waits there. Where none is taken any more, the run ends with the line
     * {@code waits} of this task. The message is given away at the call, whether it waits or not.
     *
     * <p>A null ends the task, as {@code end null}, and a message of more than 65,536 objects does, as {@code end large}: before it
     * waits.
     *
     * @param message the root of a tree that isn't part of another one
     * @throws Pausable never: it says that the call may pause
     */
    public void putw(@Free Message message) throws Pausable {}

    /**
     * Takes the first message. While there is none the task pauses; where none comes any more, the run ends with the line
     * {@code waits} of this task.
     *
     * @return the root of a tree that is the caller's own
     * @throws Pausable never: it says that the call may pause
     */
    public Message get() throws Pausable {
        return null;
    }

    /**
     * Takes the first message, where there is one.
     *
     * @return the root of a tree that is the caller's own, or null where the queue is empty
     */
    public Message getnb() {
        return null;
    }
}
