import kilim.*;

public class T extends Task {
    static Object same(@Free N n) {
        return n;
    }
}
