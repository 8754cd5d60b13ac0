import kilim.*;

/** Jobs come in any order and go out by their rank, to two workers that ask for them. */
public class PriorityQueue extends Task {
    static final int JOBS = 7;

    public void execute() throws Pausable {
        Mailbox in = new Mailbox();
        for (int i = 0; i < JOBS; i++) {
            in.put(new Job(i * 5 % JOBS, i));
        }
        new Dispatcher(in, 2).start();
        new Worker(in).start();
        new Worker(in).start();
    }
}
