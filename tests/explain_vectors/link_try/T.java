import kilim.*;

public class T extends Task {
    public void execute() throws Pausable {
        int n = 0;
        try {
            n = 10 / Sys.argCount();
        } finally {
            Sys.print(n);
        }
    }
}
