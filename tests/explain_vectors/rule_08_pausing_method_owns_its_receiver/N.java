import kilim.*;

public class N implements Message {
    @Free
    void send(Mailbox to) throws Pausable {
        to.put(this);
    }
}
