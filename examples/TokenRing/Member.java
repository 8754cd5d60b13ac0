import kilim.*;

/** Hands the token on to the next member, until it has made its hops. */
public class Member extends Task {
    Mailbox in;
    Mailbox next;

    public Member(Mailbox in, Mailbox next) {
        this.in = in;
        this.next = next;
    }

    public void execute() throws Pausable {
        boolean goesOn = true;
        while (goesOn) {
            Token token = (Token) in.get();
            goesOn = token.hops > 0;
            if (goesOn) {
                token.hops = token.hops - 1;
                if (token.hops == 0) {
                    Sys.print("that was the last hop");
                }
            }
            next.put(token);
        }
    }
}
