import kilim.*;

public class T extends Task {
    public void execute() throws Pausable {
        int found = 3;
        Sys.print("found " + found);
    }
}
