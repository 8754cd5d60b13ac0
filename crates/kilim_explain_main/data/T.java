import kilim.*;

public class T extends Task {
    public void execute() throws Pausable {
        Mailbox box = new Mailbox();
        N message = new N();
        message.v = 1;
        box.put(message);
        Sys.print(message.v);
    }
}
