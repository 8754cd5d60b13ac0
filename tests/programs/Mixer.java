import kilim.*;

/** Mixes a number, in a way that no compiler shortens, and sends what comes of it. */
class Mixer extends Task {
    int number;
    int turns;
    Mailbox out;

    Mixer(int number, int turns, Mailbox out) {
        this.number = number;
        this.turns = turns;
        this.out = out;
    }

    public void execute() throws Pausable {
        int mixed = number;
        for (int i = 0; i < turns; i++) {
            mixed = (mixed ^ mixed >>> 15) * 739790957 + i;
        }
        out.put(new Ball(mixed));
    }
}
