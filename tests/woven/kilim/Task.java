package kilim;

/** A task in woven form: nothing of it does anything. */
public class Task {
    /** A task. */
    public Task() {}

    /** Starts the task. */
    public void start() {}

    /**
     * What the task does.
     *
     * @param fiber the fiber that runs it
     */
    public void execute(Fiber fiber) throws Pausable {}
}
