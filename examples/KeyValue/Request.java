import kilim.*;

/** What a client asks of the store. The same object comes back as the answer, so none is copied. */
public class Request implements Message {
    static final int READ = 0;
    static final int WRITE = 1;
    static final int LEAVE = 2;

    int kind;
    String key;
    int value;
    boolean found;
    Mailbox reply;

    public Request(Mailbox reply) {
        this.reply = reply;
    }
}
