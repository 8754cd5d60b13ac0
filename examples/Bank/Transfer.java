import kilim.*;

/** Money goes from one account to another one. */
public class Transfer extends Request {
    int to;

    public Transfer(int account, int amount, int to, Mailbox reply) {
        super(account, amount, reply);
        this.to = to;
    }
}
