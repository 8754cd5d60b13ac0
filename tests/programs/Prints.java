import kilim.*;

/** Prints a number. */
class Prints extends Task {
    int number;

    Prints(int number) {
        this.number = number;
    }

    public void execute() throws Pausable {
        Sys.print(number);
    }
}
