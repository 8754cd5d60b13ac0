import kilim.*;

/** A worker asks for its next job, and says where it goes. */
public class Ready implements Message {
    Mailbox worker;

    public Ready(Mailbox worker) {
        this.worker = worker;
    }
}
