import kilim.*;

/** Whoever has it may speak. */
public class Token implements Message {
    int hops;

    public Token(int hops) {
        this.hops = hops;
    }
}
