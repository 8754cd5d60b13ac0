import kilim.*;

/** Has texts read as numbers, and prints the numbers and what is wrong. */
public class Numbers extends Task {
    public void execute() throws Pausable {
        Mailbox in = new Mailbox();
        Mailbox out = new Mailbox();
        new Reader(in, out).start();
        in.put(new Text("2008"));
        in.put(new Text("20x8"));
        in.put(new Text("99999999999"));
        in.put(new Text(""));
        in.put(new Text(null));
        for (int i = 0; i < 5; i++) {
            Text text = (Text) out.get();
            if (text.fault == null) {
                Sys.print(text.number);
            } else {
                Sys.print(text.fault);
            }
        }
    }
}
