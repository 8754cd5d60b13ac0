import kilim.*;

/** Jobs in a heap: none comes before the one above it. An element leaves its place by Sys.take alone. */
public class Heap implements Message {
    Job[] jobs;
    int count;

    public Heap(int room) {
        jobs = new Job[room];
    }

    /** Makes room for as many jobs again. */
    @Cuttable
    private void grow() {
        Job[] old = jobs;
        Job[] more = new Job[2 * count];
        for (int i = 0; i < count; i++) {
            more[i] = (Job) Sys.take(old, i);
        }
        jobs = more;
    }

    /** Lets a job rise from the last place. */
    private static void raise(@Cuttable Job[] jobs, @Free Job job, int last) {
        int at = last;
        while (at > 0) {
            int above = (at - 1) / 2;
            Job parent = (Job) Sys.take(jobs, above);
            if (parent.rank <= job.rank) {
                jobs[above] = parent;
                break;
            }
            jobs[at] = parent;
            at = above;
        }
        jobs[at] = job;
    }

    /** Lets a job sink from the top, over so many jobs. */
    private static void sink(@Cuttable Job[] jobs, @Free Job job, int count) {
        int at = 0;
        while (2 * at + 1 < count) {
            int below = lesser(jobs, 2 * at + 1, count);
            Job child = (Job) Sys.take(jobs, below);
            if (job.rank <= child.rank) {
                jobs[below] = child;
                break;
            }
            jobs[at] = child;
            at = below;
        }
        jobs[at] = job;
    }

    /** The place of the lesser one of two neighbours. Elements that are only read need no take. */
    private static int lesser(Job[] jobs, int left, int count) {
        int right = left + 1;
        return right < count && jobs[right].rank < jobs[left].rank ? right : left;
    }

    /** Puts a job in. */
    @Cuttable
    public void add(@Free Job job) {
        if (count == jobs.length) {
            grow();
        }
        raise(jobs, job, count);
        count = count + 1;
    }

    /** Takes the first job out; null where there is none. */
    @Cuttable
    public Job first() {
        if (count == 0) {
            return null;
        }
        Job first = (Job) Sys.take(jobs, 0);
        count = count - 1;
        if (count > 0) {
            Job last = (Job) Sys.take(jobs, count);
            sink(jobs, last, count);
        }
        return first;
    }
}
