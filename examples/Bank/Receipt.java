import kilim.*;

/** Whether it was done, and what is on the account now. */
public class Receipt implements Message {
    boolean done;
    int balance;

    public Receipt(boolean done, int balance) {
        this.done = done;
        this.balance = balance;
    }
}
