import kilim.*;

public class T extends Task {
    public void execute() throws Pausable {
        Mailbox box = new Mailbox();
        box.put(new N((N) box.get()));
    }
}
