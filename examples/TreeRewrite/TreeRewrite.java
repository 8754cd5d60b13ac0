import kilim.*;

/** Has the term (x + 0) * 1 + 2 * 3 made simpler by another task, and prints what comes back: x + 6. */
public class TreeRewrite extends Task {
    /** Prints a term, an operator before its parts. The term is only read. */
    static void show(Term term) {
        if (term.kind == Term.NUMBER) {
            Sys.print(term.number);
        } else if (term.kind == Term.NAME) {
            Sys.print(term.name);
        } else {
            Sys.print(term.kind == Term.SUM ? "+" : "*");
            show(term.left);
            show(term.right);
        }
    }

    public void execute() throws Pausable {
        Mailbox there = new Mailbox();
        Mailbox here = new Mailbox();
        new Simplifier(there, here).start();
        Term product = new Term(Term.PRODUCT, new Term(Term.SUM, new Term("x"), new Term(0)), new Term(1));
        there.put(new Term(Term.SUM, product, new Term(Term.PRODUCT, new Term(2), new Term(3))));
        Term simple = (Term) here.get();
        show(simple);
    }
}
