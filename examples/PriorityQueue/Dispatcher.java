import kilim.*;

/** Has the queue: takes jobs in, and gives each worker that asks the first one. A job of no rank tells a worker to stop. */
public class Dispatcher extends Task {
    Mailbox in;
    int workers;

    public Dispatcher(Mailbox in, int workers) {
        this.in = in;
        this.workers = workers;
    }

    public void execute() throws Pausable {
        Heap heap = new Heap(2);
        int left = workers;
        while (left > 0) {
            Message message = in.get();
            if (message instanceof Job) {
                heap.add((Job) message);
            } else {
                Ready ready = (Ready) message;
                Job next = heap.first();
                if (next == null) {
                    next = new Job(-1, 0);
                    left = left - 1;
                }
                ready.worker.put(next);
            }
        }
    }
}
