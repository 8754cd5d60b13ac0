import kilim.*;

/** Yields so many times, so many calls deep. */
class Descends extends Task {
    public void execute() throws Pausable {
        descend(Sys.arg(0), Sys.arg(1));
    }

    private void descend(int calls, int times) throws Pausable {
        if (calls > 1) {
            descend(calls - 1, times);
        } else {
            for (int i = 0; i < times; i++) {
                Sys.yield();
            }
        }
    }
}
