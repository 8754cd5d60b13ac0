import kilim.*;

public class T extends Task {
    public void execute() throws Pausable {
        Sys.print(7);
    }
}
