import kilim.*;

/** Adds a number of its own to each number. */
public class Adds extends Stage {
    int summand;

    public Adds(Mailbox in, Mailbox out, int summand) {
        super(in, out);
        this.summand = summand;
    }

    int worked(int value) {
        return value + summand;
    }
}
