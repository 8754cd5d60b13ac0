import kilim.*;

public class T extends Task {
    public void execute() throws Pausable {
        int n = 3;
        Runnable later = () -> Sys.print(n);
        later.run();
    }
}
