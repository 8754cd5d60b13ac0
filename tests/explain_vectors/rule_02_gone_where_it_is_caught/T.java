import kilim.*;

public class T extends Task {
    static void give(@Free N n, Mailbox to) {
        to.put(n);
    }

    static void send(@Free N n, Mailbox to) {
        try {
            give(n, to);
        } catch (NullPointerException e) {
            Sys.print(n.v);
        }
    }
}
