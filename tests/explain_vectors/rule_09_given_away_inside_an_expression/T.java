import kilim.*;

public class T extends Task {
    static int give(@Free N n, Mailbox to) {
        to.put(n);
        return 1;
    }

    static void use(N n, int count) {
    }

    static void both(Mailbox to) {
        N n = new N();
        use(n, give(n, to));
    }
}
