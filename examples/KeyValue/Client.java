import kilim.*;

/** Writes its own key, reads that of the next client, and leaves. It has one request, which goes there and back. */
public class Client extends Task {
    Mailbox store;
    int number;

    public Client(Mailbox store, int number) {
        this.store = store;
        this.number = number;
    }

    static String keyOf(int number) {
        switch (number) {
            case 0:
                return "apples";
            case 1:
                return "pears";
            default:
                return "plums";
        }
    }

    /** Gives the request away, and gets it back: the caller goes on with what is returned. */
    static Request answered(Mailbox store, @Free Request request) throws Pausable {
        Mailbox here = request.reply;
        store.put(request);
        return (Request) here.get();
    }

    public void execute() throws Pausable {
        Request request = new Request(new Mailbox());
        request.kind = Request.WRITE;
        request.key = keyOf(number);
        request.value = 10 * (number + 1);
        request = answered(store, request);
        request.kind = Request.READ;
        request.key = keyOf((number + 1) % 3);
        request = answered(store, request);
        if (request.found) {
            Sys.print(request.value);
        } else {
            Sys.print("not there");
        }
        request.kind = Request.LEAVE;
        store.put(request);
    }
}
