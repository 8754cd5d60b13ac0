import kilim.*;

/** Takes jobs from the queue that all workers share, until the empty one comes. */
public class Worker extends Task {
    Mailbox jobs;

    public Worker(Mailbox jobs) {
        this.jobs = jobs;
    }

    static long factorial(int n) {
        long product = 1;
        for (int i = 2; i <= n; i++) {
            product = product * i;
        }
        return product;
    }

    public void execute() throws Pausable {
        while (true) {
            Job job = (Job) jobs.get();
            Mailbox reply = job.reply;
            if (reply == null) {
                return;
            }
            int number = job.number;
            reply.put(new Answer(number, factorial(number)));
            Sys.yield();
        }
    }
}
