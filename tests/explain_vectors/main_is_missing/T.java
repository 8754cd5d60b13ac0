import kilim.*;

public class T extends Task {
    public T(int count) {
    }
}
