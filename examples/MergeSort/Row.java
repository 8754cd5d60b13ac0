import kilim.*;

/** Numbers, on their way to be sorted or back. */
public class Row implements Message {
    int[] numbers;

    public Row(@Free int[] numbers) {
        this.numbers = numbers;
    }
}
