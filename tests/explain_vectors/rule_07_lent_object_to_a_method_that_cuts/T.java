import kilim.*;

public class T extends Task {
    static void cut(@Cuttable N n) {
        n.next = null;
    }

    static void use(N n) {
        cut(n);
    }
}
