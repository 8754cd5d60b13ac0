import kilim.*;

/** Sorts the row that comes: a long one in two halves, each by a task of its own. */
public class Sorter extends Task {
    Mailbox in;
    Mailbox out;

    public Sorter(Mailbox in, Mailbox out) {
        this.in = in;
        this.out = out;
    }

    static int[] part(int[] numbers, int from, int to) {
        int[] some = new int[to - from];
        for (int i = from; i < to; i++) {
            some[i - from] = numbers[i];
        }
        return some;
    }

    static int[] merged(int[] left, int[] right) {
        int[] all = new int[left.length + right.length];
        int i = 0;
        int j = 0;
        for (int k = 0; k < all.length; k++) {
            boolean fromLeft = j == right.length || i < left.length && left[i] <= right[j];
            all[k] = fromLeft ? left[i] : right[j];
            i = fromLeft ? i + 1 : i;
            j = fromLeft ? j : j + 1;
        }
        return all;
    }

    /** Lets another task sort a part of the numbers, and gives the mailbox in which they will come. */
    static Mailbox sorted(int[] numbers, int from, int to) {
        Mailbox there = new Mailbox();
        Mailbox back = new Mailbox();
        new Sorter(there, back).start();
        there.put(new Row(part(numbers, from, to)));
        return back;
    }

    public void execute() throws Pausable {
        Row row = (Row) in.get();
        int[] numbers = row.numbers;
        int count = numbers.length;
        if (count > 1) {
            Mailbox first = sorted(numbers, 0, count / 2);
            Mailbox second = sorted(numbers, count / 2, count);
            Row left = (Row) first.get();
            Row right = (Row) second.get();
            row = new Row(merged(left.numbers, right.numbers));
        }
        out.put(row);
    }
}
