import kilim.*;

/** Starts so many tasks, which all wait; then each gets a message. */
class Many extends Task {
    public void execute() throws Pausable {
        int tasks = Sys.arg(0);
        Mailbox box = new Mailbox();
        for (int i = 0; i < tasks; i++) {
            new Waits(box).start();
        }
        Sys.yield();
        for (int i = 0; i < tasks; i++) {
            box.put(new Ball(i));
        }
    }
}
