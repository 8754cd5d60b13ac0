import kilim.*;

public class T extends Task {
    static int twice() {
        return 2 * A.next();
    }
}
