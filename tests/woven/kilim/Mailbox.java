package kilim;

/** A mailbox in woven form: nothing of it does anything. */
public final class Mailbox {
    /** A mailbox. */
    public Mailbox() {}

    /**
     * A mailbox with a bound.
     *
     * @param bound how many messages it holds
     */
    public Mailbox(int bound) {}

    /**
     * Puts a message.
     *
     * @param message the message
     */
    public void put(Message message) {}

    /**
     * Puts a message, or pauses.
     *
     * @param message the message
     * @param fiber the fiber of the task
     */
    public void putw(Message message, Fiber fiber) throws Pausable {}

    /**
     * Takes a message, or pauses.
     *
     * @param fiber the fiber of the task
     * @return the message
     */
    public Message get(Fiber fiber) throws Pausable {
        return null;
    }

    /**
     * Takes a message where there is one.
     *
     * @return the message, or null
     */
    public Message getnb() {
        return null;
    }
}
