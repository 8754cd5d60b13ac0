import kilim.*;

public class A {
    static int next() throws Pausable {
        Sys.yield();
        return 1;
    }
}
