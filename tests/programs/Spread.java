import kilim.*;

/** Starts two more of its kind, where levels are left, and says how many it started. */
class Spread extends Task {
    int levels;
    Mailbox out;

    Spread(int levels, Mailbox out) {
        this.levels = levels;
        this.out = out;
    }

    public void execute() throws Pausable {
        int started = 0;
        if (levels > 1) {
            new Spread(levels - 1, out).start();
            new Spread(levels - 1, out).start();
            started = 2;
        }
        out.put(new Ball(started));
    }
}
