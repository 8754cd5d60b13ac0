import kilim.*;

/** Waits for one message. */
class Waits extends Task {
    Mailbox in;

    Waits(Mailbox in) {
        this.in = in;
    }

    public void execute() throws Pausable {
        Ball ball = (Ball) in.get();
        int number = ball.number;
    }
}
