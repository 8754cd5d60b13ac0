import kilim.*;

/** What a worker found. */
public class Answer implements Message {
    int number;
    long result;

    public Answer(int number, long result) {
        this.number = number;
        this.result = result;
    }
}
