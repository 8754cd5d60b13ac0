import kilim.*;

/** Two tasks play with one ball: whoever has it is the only one who has it. */
public class PingPong extends Task {
    public void execute() throws Pausable {
        int balls = Sys.arg(0);
        Mailbox there = new Mailbox();
        Mailbox here = new Mailbox();
        new Pong(there, balls).start();
        Ball ball = new Ball(0, here);
        for (int i = 0; i < balls; i++) {
            there.put(ball);
            ball = (Ball) here.get();
            Sys.print(ball.count);
        }
    }
}
