import kilim.*;

public class T extends Task {
    static void clear(N n) {
        n.next = null;
    }
}
