import kilim.*;

/** A fork: it lies in its mailbox, or somebody has it. */
public class Fork implements Message {
    int number;
    int uses;

    public Fork(int number) {
        this.number = number;
    }
}
