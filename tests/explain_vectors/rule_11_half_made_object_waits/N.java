import kilim.*;

public class N implements Message {
    N next;

    public N(@Free N next) {
        this.next = next;
    }
}
