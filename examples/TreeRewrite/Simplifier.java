import kilim.*;

/** Makes one term simpler, and gives it back. */
public class Simplifier extends Task {
    Mailbox in;
    Mailbox out;

    public Simplifier(Mailbox in, Mailbox out) {
        this.in = in;
        this.out = out;
    }

    /** The simplest form of a term: both parts are cut off, made simpler, and hung in again where they are still needed. */
    static Term simple(@Free Term term) {
        if (term.kind == Term.NUMBER || term.kind == Term.NAME) {
            return term;
        }
        Term left = term.left;
        term.left = null;
        left = simple(left);
        Term right = term.right;
        term.right = null;
        right = simple(right);
        return term.kind == Term.SUM ? sum(term, left, right) : product(term, left, right);
    }

    static Term sum(@Free Term term, @Free Term left, @Free Term right) {
        if (left.isNumber(0)) {
            return right;
        }
        if (right.isNumber(0)) {
            return left;
        }
        if (left.kind == Term.NUMBER && right.kind == Term.NUMBER) {
            return new Term(left.number + right.number);
        }
        term.left = left;
        term.right = right;
        return term;
    }

    static Term product(@Free Term term, @Free Term left, @Free Term right) {
        if (left.isNumber(1)) {
            return right;
        }
        if (right.isNumber(1)) {
            return left;
        }
        if (left.kind == Term.NUMBER && right.kind == Term.NUMBER) {
            return new Term(left.number * right.number);
        }
        term.left = left;
        term.right = right;
        return term;
    }

    public void execute() throws Pausable {
        Term term = (Term) in.get();
        out.put(simple(term));
    }
}
