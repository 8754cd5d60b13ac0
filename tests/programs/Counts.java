import kilim.*;

/** Counts, and sends how far it came. */
class Counts extends Task {
    int turns;
    Mailbox out;

    Counts(int turns, Mailbox out) {
        this.turns = turns;
        this.out = out;
    }

    public void execute() throws Pausable {
        int sum = 0;
        for (int i = 0; i < turns; i++) {
            sum++;
        }
        out.put(new Ball(sum));
    }
}
