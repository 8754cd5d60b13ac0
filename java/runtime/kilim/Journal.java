package kilim;

import java.io.IOException;
import java.io.OutputStream;
import java.util.Arrays;
import java.util.concurrent.atomic.AtomicLong;

/**
 * What one worker writes down of the acts that are done on it. Each act has a stamp, a number that is drawn where it is done: while
 * its mailbox is locked, or while nobody else starts a task. So the entries of all workers in the order of their stamps are one order
 * in which all acts can have been done. They are kept until the end of the run and written then.
 */
final class Journal {
    private static final AtomicLong STAMPS = new AtomicLong();
    private static final int FEW = 64;
    private static final int PART = 1 << 20;
    private static final long NONE = -1;

    /** Some entries, one behind another: a megabyte of text, and their stamps and the places where they end. */
    private static final class Part {
        final Text text = new Text();
        long[] stamps = new long[FEW];
        int[] ends = new int[FEW];
        int count;
        Part next;
    }

    private final Part first = new Part();
    private Part last = first;
    private long stamps;
    private long startStamp;
    private long endStamp = NONE;
    private final Text shape = new Text();
    private final Shapes shapes = new Shapes();

    /** The next stamp. */
    long stamp() {
        return Settings.ALONE ? stamps++ : STAMPS.getAndIncrement();
    }

    /** Draws the stamp of a start. */
    void stampStart() {
        startStamp = stamp();
    }

    /** Draws the stamp of the end that follows at once. */
    void stampEnd() {
        endStamp = stamp();
    }

    /** Writes the shape of a tree that is about to be put or started, and sees that the entry of that has room on the stack. */
    void shape(Object root) {
        Worker.room();
        shape.clear();
        shapes.write(root, shape);
    }

    /** A message of the shape that was written was put. */
    void put(long stamp, int task, Mailbox box, long place) {
        end(stamp, begin(task).put(" put ").box(box).put(" #").number(place).put(' ').put(shape));
    }

    /** A message was taken. */
    void take(long stamp, int task, Mailbox box, long place) {
        end(stamp, begin(task).put(" take ").box(box).put(" #").number(place));
    }

    /** A mailbox was seen empty. */
    void empty(long stamp, int task, Mailbox box) {
        end(stamp, begin(task).put(" empty ").box(box));
    }

    /** A task of the shape that was written was started. */
    void start(int task, int started) {
        end(startStamp, begin(task).put(" start ").number(started).put(' ').put(shape));
    }

    /** A value was printed. */
    void print(int task, Text value) {
        end(stamp(), begin(task).put(" print ").put(value));
    }

    /** A mailbox was made with a bound. */
    void bound(int task, Mailbox box, int most) {
        end(stamp(), begin(task).put(" bound ").box(box).put(' ').number(most));
    }

    /** A task ended. */
    void end(int task, String cause) {
        long stamp = endStamp == NONE ? stamp() : endStamp;
        endStamp = NONE;
        end(stamp, begin(task).put(" end ").put(cause));
    }

    private Text begin(int task) {
        if (last.text.length >= PART) {
            last.next = new Part();
            last = last.next;
        }
        return last.text.number(task);
    }

    private void end(long stamp, Text text) {
        Part part = last;
        text.put('\n');
        if (part.count == part.stamps.length) {
            part.stamps = Arrays.copyOf(part.stamps, 2 * part.count);
            part.ends = Arrays.copyOf(part.ends, 2 * part.count);
        }
        part.stamps[part.count] = stamp;
        part.ends[part.count++] = text.length;
    }

    /** Where the writing of a worker's entries is. */
    private static final class Cursor {
        Part part;
        int place;
        int from;

        Cursor(Part part) {
            this.part = part;
        }

        long stamp() {
            return part.stamps[place];
        }

        /** Goes to the next part where this one has no more entries. */
        boolean some() {
            if (part != null && place == part.count) {
                part = part.next;
                place = 0;
                from = 0;
            }
            return part != null && part.count > 0;
        }

        void write(OutputStream out) throws IOException {
            int to = part.ends[place++];
            out.write(part.text.bytes, from, to - from);
            from = to;
        }
    }

    /** Writes the entries of all workers, in the order of their stamps, and a line for each task that waits. */
    static void write(Worker[] workers, OutputStream out) throws IOException {
        Cursor[] cursors = new Cursor[workers.length];
        for (int i = 0; i < workers.length; i++) {
            cursors[i] = new Cursor(workers[i].journal.first);
        }
        for (Cursor least = least(cursors); least != null; least = least(cursors)) {
            least.write(out);
        }
        Text closing = new Text();
        Tasks.closing(closing);
        out.write(closing.bytes, 0, closing.length);
    }

    private static Cursor least(Cursor[] cursors) {
        Cursor least = null;
        for (Cursor cursor : cursors) {
            if (cursor.some() && (least == null || cursor.stamp() < least.stamp())) {
                least = cursor;
            }
        }
        return least;
    }
}
