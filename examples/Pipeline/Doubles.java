import kilim.*;

/** Doubles each number. */
public class Doubles extends Stage {
    public Doubles(Mailbox in, Mailbox out) {
        super(in, out);
    }

    int worked(int value) {
        return value * 2;
    }
}
