import kilim.*;

/** Yields once, three calls below its `execute`. */
class Deeper extends Task {
    public void execute() throws Pausable {
        first();
    }

    private void first() throws Pausable {
        second();
    }

    private void second() throws Pausable {
        third();
    }

    private void third() throws Pausable {
        Sys.yield();
    }
}
