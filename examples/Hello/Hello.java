import kilim.*;

/** Prints two numbers. */
public class Hello extends Task {
    public void execute() throws Pausable {
        Sys.print(42);
        Sys.print(-7);
    }
}
