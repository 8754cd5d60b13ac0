import kilim.*;

/** Tasks that share two mailboxes: whoever comes first takes, and what comes of it depends on the order. */
class Shared extends Task {
    static final int TASKS = 8;
    static final int BALLS = 40;

    public void execute() throws Pausable {
        Mailbox in = new Mailbox();
        Mailbox out = new Mailbox();
        for (int i = 0; i < TASKS; i++) {
            new Shares(i, in, out).start();
        }
        for (int i = 0; i < BALLS; i++) {
            in.put(new Ball(i));
        }
        int sum = 0;
        for (int i = 0; i < BALLS; i++) {
            Ball ball = (Ball) out.get();
            sum = sum + ball.number;
            if (ball.number % 5 == 0) {
                Sys.print(ball.number);
            }
        }
        for (int i = 0; i < TASKS; i++) {
            in.put(new Ball(-1));
        }
        Sys.print(sum);
    }
}
