import kilim.*;

/** Counts, six simple instructions a turn. */
class Count extends Task {
    public void execute() throws Pausable {
        Sys.print(counted(Sys.arg(0)));
    }

    static int counted(int turns) {
        int sum = 0;
        for (int i = 0; i < turns; i++) {
            sum++;
        }
        return sum;
    }
}
