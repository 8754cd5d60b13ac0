import kilim.*;

/** Numbers go through two stages: doubled, then one is added. The items themselves go on, and none is copied. */
public class Pipeline extends Task {
    static final int COUNT = 4;

    public void execute() throws Pausable {
        Mailbox first = new Mailbox();
        Mailbox second = new Mailbox();
        Mailbox third = new Mailbox();
        new Doubles(first, second).start();
        new Adds(second, third, 1).start();
        for (int i = 1; i <= COUNT; i++) {
            first.put(new Item(i, i == COUNT));
        }
        boolean more = true;
        while (more) {
            Item item = (Item) third.get();
            Sys.print(item.value);
            more = !item.last;
        }
    }
}
