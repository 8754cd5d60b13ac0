import kilim.*;

/** Three philosophers sit at a table with three forks. A fork in a mailbox is free: taking the message is taking the fork. */
public class Philosophers extends Task {
    public void execute() throws Pausable {
        Mailbox a = new Mailbox();
        Mailbox b = new Mailbox();
        Mailbox c = new Mailbox();
        a.put(new Fork(0));
        b.put(new Fork(1));
        c.put(new Fork(2));
        new Philosopher(0, a, b).start();
        new Philosopher(1, b, c).start();
        new Philosopher(2, a, c).start();
    }
}
