import kilim.*;

/** A store of numbers by their keys, which is one task's alone, and three clients that ask it. */
public class KeyValue extends Task {
    static final int CLIENTS = 3;

    public void execute() throws Pausable {
        Mailbox requests = new Mailbox();
        new Store(requests, CLIENTS).start();
        for (int i = 0; i < CLIENTS; i++) {
            new Client(requests, i).start();
        }
    }
}
