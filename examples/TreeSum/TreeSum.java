import kilim.*;

/** Adds the numbers from 1 to 5, which hang in a tree. */
public class TreeSum extends Task {
    public void execute() throws Pausable {
        Mailbox out = new Mailbox();
        new Adder(Tree.of(1, 5), out).start();
        Sum sum = (Sum) out.get();
        Sys.print(sum.value);
    }
}
