import kilim.*;

/** Starts a task that starts two more, and so on, so many levels down; counts what comes of them. */
class Spreads extends Task {
    public void execute() throws Pausable {
        int levels = Sys.arg(0);
        Mailbox out = new Mailbox();
        new Spread(levels, out).start();
        int count = 0;
        for (int left = 1; left > 0; left--) {
            Ball ball = (Ball) out.get();
            count = count + 1;
            left = left + ball.number;
        }
        Sys.print(count);
    }
}
