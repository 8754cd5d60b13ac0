import kilim.*;

/** What a customer asks of the bank, and where the receipt goes. */
public abstract class Request implements Message {
    int account;
    int amount;
    Mailbox reply;

    public Request(int account, int amount, Mailbox reply) {
        this.account = account;
        this.amount = amount;
        this.reply = reply;
    }
}
