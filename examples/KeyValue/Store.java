import kilim.*;

/** The one task that has the table: it serves the requests in their order, until all clients have left. */
public class Store extends Task {
    Mailbox requests;
    int clients;

    public Store(Mailbox requests, int clients) {
        this.requests = requests;
        this.clients = clients;
    }

    /** Writes a value, or reads one. The request is only lent: its fields that hold values may be written. */
    static void serve(Table table, Request request) {
        Entry entry = table.entryOf(request.key);
        request.found = entry != null;
        if (request.kind == Request.WRITE) {
            table.write(request.key, request.value);
        } else if (entry != null) {
            request.value = entry.value;
        }
    }

    public void execute() throws Pausable {
        Table table = new Table(8);
        int left = clients;
        while (left > 0) {
            Request request = (Request) requests.get();
            if (request.kind == Request.LEAVE) {
                left = left - 1;
            } else {
                serve(table, request);
                Mailbox reply = request.reply;
                reply.put(request);
            }
        }
        Sys.print("keys");
        Sys.print(table.size);
    }
}
