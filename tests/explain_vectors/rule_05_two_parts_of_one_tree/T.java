import kilim.*;

public class T extends Task {
    static void join(@Cuttable N one, N other) {
    }

    public void execute() throws Pausable {
        N n = new N();
        join(n, n);
    }
}
