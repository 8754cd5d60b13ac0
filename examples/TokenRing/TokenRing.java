import kilim.*;

/** Members stand in a ring, and one token goes round. With no hops left it goes round once more, so that all go home. */
public class TokenRing extends Task {
    public void execute() throws Pausable {
        int members = Sys.arg(0);
        int hops = Sys.arg(1);
        Mailbox first = new Mailbox();
        Mailbox in = first;
        for (int i = 1; i < members; i++) {
            Mailbox next = new Mailbox();
            new Member(in, next).start();
            in = next;
        }
        new Member(in, first).start();
        first.put(new Token(hops));
    }
}
