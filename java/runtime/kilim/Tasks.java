package kilim;

import java.util.Arrays;

/** The tasks of a run, by their numbers. */
final class Tasks {
    private static final int FEW = 16;

    private static int count;

    /** Where a journal is kept: the fibers of the tasks that haven't ended, each at its number. */
    private static Fiber[] live = new Fiber[FEW];

    private Tasks() {}

    /**
     * Makes a fiber for a new task, for a worker to have ready next; null for the body stands for the main task. The stamp of the start
     * is drawn while nobody else starts a task, so that tasks are numbered in the order of their starts.
     *
     * @return whether there is room for one more task
     */
    static synchronized boolean begin(Task body, Worker worker) {
        if (count >= Settings.MOST_TASKS) {
            return false;
        }
        Fiber fiber = new Fiber(count, body);
        if (Settings.JOURNAL) {
            if (count == live.length) {
                live = Arrays.copyOf(live, 2 * count);
            }
            if (body != null) {
                worker.journal.stampStart();
            }
            live[count] = fiber;
        }
        count++;
        worker.woken = fiber;
        return true;
    }

    /** The task of a fiber has ended. */
    static void ended(Fiber fiber) {
        if (Settings.JOURNAL) {
            synchronized (Tasks.class) {
                live[fiber.task] = null;
            }
        }
    }

    /** How many tasks were started, the main one among them. */
    static synchronized int count() {
        return count;
    }

    /** At the end of a run: a line for each task that waits. */
    static synchronized void closing(Text text) {
        for (int i = 0; i < count; i++) {
            if (live[i] != null) {
                text.number(i).put(" waits ").box(live[i].waits).put('\n');
            }
        }
    }
}
