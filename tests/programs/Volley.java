import kilim.*;

/** Plays a ball to another task and takes it back, so many times. */
class Volley extends Task {
    public void execute() throws Pausable {
        int times = Sys.arg(0);
        Mailbox there = new Mailbox();
        Mailbox here = new Mailbox();
        new Echo(there, here, times).start();
        Ball ball = new Ball(0);
        for (int i = 0; i < times; i++) {
            there.put(ball);
            ball = (Ball) here.get();
        }
    }
}
