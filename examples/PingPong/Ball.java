import kilim.*;

/** A message that knows where it goes back to. */
public class Ball implements Message {
    int count;
    Mailbox back;

    public Ball(int count, Mailbox back) {
        this.count = count;
        this.back = back;
    }
}
