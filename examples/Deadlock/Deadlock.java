import kilim.*;

/** Two painters share a brush and a palette, and take them in different orders: both wait for ever. */
public class Deadlock extends Task {
    public void execute() throws Pausable {
        Mailbox brush = new Mailbox();
        Mailbox palette = new Mailbox();
        brush.put(new Tool("brush"));
        palette.put(new Tool("palette"));
        new Painter(brush, palette).start();
        new Painter(palette, brush).start();
    }
}
