import kilim.*;

/** Takes so many balls. */
class Drain extends Task {
    Mailbox in;
    int times;

    Drain(Mailbox in, int times) {
        this.in = in;
        this.times = times;
    }

    public void execute() throws Pausable {
        for (int i = 0; i < times; i++) {
            Ball ball = (Ball) in.get();
        }
    }
}
