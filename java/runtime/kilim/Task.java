package kilim;

/**
 * A task with a heap of its own. Its work is {@link #execute()}, which a subclass overrides, with {@code throws Pausable}. The
 * main class is a task with a constructor without arguments: it is made and started first.
 *
 * <p>A field of a task holds a value or a message, and no other task. There are no arrays of tasks.
 */
public class Task {
    /** Makes a task that hasn't been started. */
    public Task() {}

    /**
     * Gives the task, and all that hangs from it, away to be run: it may not be used afterwards.
     */
    @Free
    public void start() {
        Worker.current().start(this);
    }

    /**
     * The work of the task; the one of this class does nothing.
     *
     * @throws Pausable never: it says that the work may pause
     */
    @Cuttable
    public void execute() throws Pausable {}

    /**
     * The woven form of {@link #execute()}, which woven subclasses override in its place.
     *
     * @param fiber the fiber of the task
     * @throws Pausable never: it says that the work may pause
     */
    public void execute(Fiber fiber) throws Pausable {
        if (getClass() != Task.class) {
            Unwoven.refuse(getClass());
        }
    }
}
