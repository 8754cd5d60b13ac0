package kilim;

/**
 * A task with a heap of its own. Its work is {@link #execute}, which a subclass overrides, with {@code throws Pausable}. The
 * main class is a task with a constructor without arguments: it is made and started first.
 *
 * <p>A field of a task holds a value, a message, an array of values or an array of messages, and no task. There are no arrays of tasks.
 */
public class Task {
    /** Makes a task that hasn't been started. */
    public Task() {}

    /**
     * Gives the task, and all that hangs from it, away to be run: it may not be used afterwards.
     *
     * <p>The 10,001st task of a run isn't started: the task that calls this ends, as {@code end tasks}. Where the task
     * and all that hangs from it are more than 65,536 objects, the caller ends as {@code end large}, and on a null as {@code end null}.
     */
    @Free
    public void start() {}

    /**
     * The work of the task; the one of this class does nothing. Where it returns the task ends, as {@code end done}. It ends before, as
     * {@code end spent}, where it has done as many instructions as it may, and as {@code end depth} where 512 calls haven't
     * returned and one more comes.
     *
     * @throws Pausable never: it says that the work may pause
     */
    @Cuttable
    public void execute() throws Pausable {}
}
