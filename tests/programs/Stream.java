import kilim.*;

/** Puts so many balls into a mailbox for so many, and waits where they aren't taken; with a bound of 0 it waits nowhere. */
class Stream extends Task {
    public void execute() throws Pausable {
        int times = Sys.arg(0);
        int most = Sys.arg(1);
        Mailbox out;
        if (most == 0) out = new Mailbox();
        else out = new Mailbox(most);
        new Drain(out, times).start();
        for (int i = 0; i < times; i++) {
            out.putw(new Ball(i));
        }
    }
}
