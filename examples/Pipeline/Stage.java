import kilim.*;

/** Takes items on the left, works on them, and hands the same items on to the right. */
public abstract class Stage extends Task {
    Mailbox in;
    Mailbox out;

    public Stage(Mailbox in, Mailbox out) {
        this.in = in;
        this.out = out;
    }

    abstract int worked(int value);

    public void execute() throws Pausable {
        boolean more = true;
        while (more) {
            Item item = (Item) in.get();
            more = !item.last;
            item.value = worked(item.value);
            out.put(item);
        }
    }
}
