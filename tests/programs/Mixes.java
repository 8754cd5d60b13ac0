import kilim.*;

/** Starts so many tasks, each of which mixes a number for so many turns; adds what they send. */
class Mixes extends Task {
    public void execute() throws Pausable {
        int tasks = Sys.arg(0);
        int turns = Sys.arg(1);
        Mailbox out = new Mailbox();
        for (int i = 0; i < tasks; i++) {
            new Mixer(i, turns, out).start();
        }
        int sum = 0;
        for (int i = 0; i < tasks; i++) {
            Ball ball = (Ball) out.get();
            sum = sum + ball.number;
        }
        Sys.print(sum);
    }
}
