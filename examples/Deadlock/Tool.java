import kilim.*;

/** Whoever took it from its mailbox has it. */
public class Tool implements Message {
    String name;

    public Tool(String name) {
        this.name = name;
    }
}
