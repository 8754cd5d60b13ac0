import kilim.*;

public class T extends Task {
    public void execute() {
        Sys.print(1);
    }
}
