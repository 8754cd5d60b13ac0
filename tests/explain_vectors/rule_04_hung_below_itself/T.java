import kilim.*;

public class T extends Task {
    public void execute() throws Pausable {
        N ring = new N();
        ring.next = ring;
    }
}
