import kilim.*;

public class T extends Task {
    static int same(int n) {
        return n;
    }

    static int checked(int n) {
        try {
            return same(n);
        } catch (IllegalStateException e) {
            return 0;
        }
    }
}
