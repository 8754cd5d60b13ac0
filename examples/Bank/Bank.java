import kilim.*;

/** A bank with two accounts, a customer for each, and one teller. */
public class Bank extends Task {
    public void execute() throws Pausable {
        Mailbox requests = new Mailbox();
        new Teller(requests, 2, 2).start();
        new Customer(requests, 0, 1).start();
        new Customer(requests, 1, 0).start();
    }
}
