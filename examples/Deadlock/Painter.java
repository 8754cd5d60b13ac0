import kilim.*;

/** Takes one tool, lets the others go on, takes the other tool, paints, and puts both back. */
public class Painter extends Task {
    Mailbox first;
    Mailbox second;

    public Painter(Mailbox first, Mailbox second) {
        this.first = first;
        this.second = second;
    }

    public void execute() throws Pausable {
        Tool one = (Tool) first.get();
        Sys.yield();
        Tool other = (Tool) second.get();
        Sys.print("painted");
        first.put(one);
        second.put(other);
    }
}
