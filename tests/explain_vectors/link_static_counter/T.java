import kilim.*;

public class T extends Task {
    static int made;

    public void execute() throws Pausable {
        Sys.print(made);
        made = made + 1;
    }
}
