import kilim.*;

/** Takes balls from the mailbox that all share, counts a while, and puts them into the other one; looks there too. */
class Shares extends Task {
    int own;
    Mailbox in;
    Mailbox out;

    Shares(int own, Mailbox in, Mailbox out) {
        this.own = own;
        this.in = in;
        this.out = out;
    }

    public void execute() throws Pausable {
        int number = 0;
        while (number >= 0) {
            Ball ball = (Ball) in.getnb();
            if (ball == null) {
                Sys.yield();
                ball = (Ball) in.get();
            }
            number = ball.number;
            if (number >= 0) {
                for (int i = 0; i < 50 * own; i++) {
                    number++;
                }
                ball.number = number;
                out.put(ball);
            }
        }
    }
}
