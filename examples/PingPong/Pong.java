import kilim.*;

/** Counts each ball that comes, and plays it back. */
public class Pong extends Task {
    Mailbox in;
    int balls;

    public Pong(Mailbox in, int balls) {
        this.in = in;
        this.balls = balls;
    }

    public void execute() throws Pausable {
        for (int i = 0; i < balls; i++) {
            Ball ball = (Ball) in.get();
            ball.count = ball.count + 1;
            Mailbox back = ball.back;
            back.put(ball);
        }
    }
}
