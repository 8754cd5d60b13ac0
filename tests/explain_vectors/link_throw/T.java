import kilim.*;

public class T extends Task {
    static int checked(int n) {
        if (n < 0) {
            throw new IllegalArgumentException();
        }
        return n;
    }
}
