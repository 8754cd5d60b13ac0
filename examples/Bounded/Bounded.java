import kilim.*;

/** A fast source and a slow sink, with a mailbox for two numbers between them: the source waits while it is full. */
public class Bounded extends Task {
    static final int COUNT = 6;

    public void execute() throws Pausable {
        Mailbox between = new Mailbox(2);
        new Source(between, COUNT).start();
        int sum = 0;
        for (int i = 0; i < COUNT; i++) {
            Sys.yield();
            Item item = (Item) between.get();
            sum += item.value;
            Sys.print(sum);
        }
    }
}
