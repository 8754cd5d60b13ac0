import kilim.*;

/** Adds the numbers of a tree: each subtree is cut off and given to a task of its own. */
public class Adder extends Task {
    Tree tree;
    Mailbox out;

    public Adder(@Free Tree tree, Mailbox out) {
        this.tree = tree;
        this.out = out;
    }

    /** How many tasks were started: one, or none for no tree. */
    static int delegated(@Free Tree subtree, Mailbox sums) {
        if (subtree == null) {
            return 0;
        }
        new Adder(subtree, sums).start();
        return 1;
    }

    public void execute() throws Pausable {
        Tree whole = tree;
        tree = null;
        Mailbox sums = new Mailbox();
        Tree left = whole.left;
        whole.left = null;
        int parts = delegated(left, sums);
        Tree right = whole.right;
        whole.right = null;
        parts = parts + delegated(right, sums);
        long sum = whole.value;
        for (int i = 0; i < parts; i++) {
            Sum part = (Sum) sums.get();
            sum = sum + part.value;
        }
        out.put(new Sum(sum));
    }
}
