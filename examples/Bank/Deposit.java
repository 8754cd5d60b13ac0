import kilim.*;

/** Money is brought. */
public class Deposit extends Request {
    public Deposit(int account, int amount, Mailbox reply) {
        super(account, amount, reply);
    }
}
