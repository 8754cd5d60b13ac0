import kilim.*;

/** Brings money, sends half of it to the next account, and tries to send more than there is. */
public class Customer extends Task {
    Mailbox bank;
    int account;
    int other;

    public Customer(Mailbox bank, int account, int other) {
        this.bank = bank;
        this.account = account;
        this.other = other;
    }

    static int answered(Mailbox here) throws Pausable {
        Receipt receipt = (Receipt) here.get();
        Sys.print(receipt.done ? "done" : "refused");
        return receipt.balance;
    }

    public void execute() throws Pausable {
        Mailbox here = new Mailbox();
        bank.put(new Deposit(account, 100 * (account + 1), here));
        int balance = answered(here);
        bank.put(new Transfer(account, balance / 2, other, here));
        answered(here);
        bank.put(new Transfer(account, 100000, other, here));
        answered(here);
    }
}
