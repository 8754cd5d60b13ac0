import kilim.*;

/** Yields so many times, three calls deep. */
class Deep extends Task {
    public void execute() throws Pausable {
        middle(Sys.arg(0));
    }

    private void middle(int times) throws Pausable {
        inner(times);
    }

    private void inner(int times) throws Pausable {
        for (int i = 0; i < times; i++) {
            Sys.yield();
        }
    }
}
