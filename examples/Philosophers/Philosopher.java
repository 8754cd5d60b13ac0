import kilim.*;

/** Thinks and eats. Takes first the fork of the lower number, so that nobody starves. */
public class Philosopher extends Task {
    int number;
    Mailbox first;
    Mailbox second;

    public Philosopher(int number, Mailbox first, Mailbox second) {
        this.number = number;
        this.first = first;
        this.second = second;
    }

    public void execute() throws Pausable {
        for (int meal = 0; meal < 2; meal++) {
            Sys.yield();
            Fork one = (Fork) first.get();
            Sys.yield();
            Fork other = (Fork) second.get();
            one.uses = one.uses + 1;
            other.uses = other.uses + 1;
            Sys.print(number);
            first.put(one);
            second.put(other);
        }
    }
}
