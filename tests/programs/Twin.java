import kilim.*;

/** Two tasks that print: with two workers both run at once. */
class Twin extends Task {
    public void execute() throws Pausable {
        new Prints(1).start();
        new Prints(2).start();
    }
}
