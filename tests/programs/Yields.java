import kilim.*;

/** Yields so many times, alone. */
class Yields extends Task {
    public void execute() throws Pausable {
        int times = Sys.arg(0);
        for (int i = 0; i < times; i++) {
            Sys.yield();
        }
    }
}
