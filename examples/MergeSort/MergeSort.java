import kilim.*;

/** Sorts the numbers of the command line. */
public class MergeSort extends Task {
    public void execute() throws Pausable {
        int[] numbers = new int[Sys.argCount()];
        for (int i = 0; i < numbers.length; i++) {
            numbers[i] = Sys.arg(i);
        }
        Mailbox there = new Mailbox();
        Mailbox back = new Mailbox();
        new Sorter(there, back).start();
        there.put(new Row(numbers));
        Row row = (Row) back.get();
        int[] sorted = row.numbers;
        for (int i = 0; i < sorted.length; i++) {
            Sys.print(sorted[i]);
        }
    }
}
