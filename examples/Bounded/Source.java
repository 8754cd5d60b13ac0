import kilim.*;

/** Makes numbers as fast as it can, and waits where they aren't taken. */
public class Source extends Task {
    Mailbox out;
    int count;

    public Source(Mailbox out, int count) {
        this.out = out;
        this.count = count;
    }

    public void execute() throws Pausable {
        for (int i = 1; i <= count; i++) {
            out.putw(new Item(i));
        }
    }
}
