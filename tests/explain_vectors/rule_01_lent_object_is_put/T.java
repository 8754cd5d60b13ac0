import kilim.*;

public class T extends Task {
    static void give(N n, Mailbox to) {
        to.put(n);
    }
}
