import kilim.*;

/** A text to be read as a number. It comes back with the number, or with what is wrong. */
public class Text implements Message {
    String text;
    int number;
    String fault;

    public Text(String text) {
        this.text = text;
    }
}
