import kilim.*;

/** Plays each ball back. */
class Echo extends Task {
    Mailbox in;
    Mailbox out;
    int times;

    Echo(Mailbox in, Mailbox out, int times) {
        this.in = in;
        this.out = out;
        this.times = times;
    }

    public void execute() throws Pausable {
        for (int i = 0; i < times; i++) {
            Ball ball = (Ball) in.get();
            out.put(ball);
        }
    }
}
