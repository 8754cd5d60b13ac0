import kilim.*;

/** Asks for jobs, and prints the number of each. */
public class Worker extends Task {
    Mailbox queue;

    public Worker(Mailbox queue) {
        this.queue = queue;
    }

    public void execute() throws Pausable {
        Mailbox here = new Mailbox();
        queue.put(new Ready(here));
        Job job = (Job) here.get();
        while (job.rank >= 0) {
            Sys.print(job.number);
            queue.put(new Ready(here));
            job = (Job) here.get();
        }
    }
}
