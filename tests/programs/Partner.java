import kilim.*;

/** Sends a ball, looks whether one has come, and sends back each that comes. */
class Partner extends Task {
    Mailbox in;
    Mailbox out;

    Partner(Mailbox in, Mailbox out) {
        this.in = in;
        this.out = out;
    }

    public void execute() throws Pausable {
        out.put(new Ball(50));
        Ball seen = (Ball) in.getnb();
        if (seen != null) {
            seen.number = seen.number + 20;
            out.put(seen);
        }
        while (true) {
            Ball ball = (Ball) in.get();
            ball.number = ball.number + 10;
            out.put(ball);
        }
    }
}
