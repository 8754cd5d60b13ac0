import kilim.*;

/** Three workers share the jobs; the answers come back in any order, and each says to what it belongs. */
public class WorkerPool extends Task {
    static final int WORKERS = 3;
    static final int JOBS = 7;

    public void execute() throws Pausable {
        Mailbox jobs = new Mailbox();
        Mailbox replies = new Mailbox();
        for (int i = 0; i < WORKERS; i++) {
            new Worker(jobs).start();
        }
        for (int i = 0; i < JOBS; i++) {
            jobs.put(new Job(3 * i, replies));
        }
        long[] results = new long[JOBS];
        for (int i = 0; i < JOBS; i++) {
            Answer answer = (Answer) replies.get();
            results[answer.number / 3] = answer.result;
        }
        for (int i = 0; i < WORKERS; i++) {
            jobs.put(new Job(0, null));
        }
        for (int i = 0; i < JOBS; i++) {
            Sys.print(results[i]);
        }
    }
}
