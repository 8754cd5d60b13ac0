import kilim.*;

/** The one task that has the accounts: so no lock is needed. */
public class Teller extends Task {
    Mailbox requests;
    int accounts;
    int customers;

    public Teller(Mailbox requests, int accounts, int customers) {
        this.requests = requests;
        this.accounts = accounts;
        this.customers = customers;
    }

    static boolean transfer(int[] balances, Transfer order) {
        if (balances[order.account] < order.amount) {
            return false;
        }
        balances[order.account] = balances[order.account] - order.amount;
        balances[order.to] = balances[order.to] + order.amount;
        return true;
    }

    static boolean serve(int[] balances, Request request) {
        if (request instanceof Transfer) {
            return transfer(balances, (Transfer) request);
        }
        balances[request.account] = balances[request.account] + request.amount;
        return true;
    }

    public void execute() throws Pausable {
        int[] balances = new int[accounts];
        int served = 0;
        while (served < customers * 3) {
            Request request = (Request) requests.get();
            boolean done = serve(balances, request);
            Mailbox reply = request.reply;
            int balance = balances[request.account];
            reply.put(new Receipt(done, balance));
            served = served + 1;
        }
        int sum = 0;
        for (int i = 0; i < accounts; i++) {
            sum = sum + balances[i];
        }
        Sys.print("in the bank");
        Sys.print(sum);
    }
}
