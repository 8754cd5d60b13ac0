import kilim.*;

/** The sum of a tree. */
public class Sum implements Message {
    long value;

    public Sum(long value) {
        this.value = value;
    }
}
