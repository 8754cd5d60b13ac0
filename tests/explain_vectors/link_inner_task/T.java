import kilim.*;

public class T extends Task {
    class Inner extends Task {
    }

    public void execute() throws Pausable {
        new Inner().start();
    }
}
