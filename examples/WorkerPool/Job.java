import kilim.*;

/** A number to be worked on, and where the answer goes. */
public class Job implements Message {
    int number;
    Mailbox reply;

    public Job(int number, Mailbox reply) {
        this.number = number;
        this.reply = reply;
    }
}
