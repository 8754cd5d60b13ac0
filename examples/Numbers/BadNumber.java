/** A text that is no number: what is wrong, and at which of its letters. */
public class BadNumber extends RuntimeException {
    String what;
    int at;

    public BadNumber(String what, int at) {
        this.what = what;
        this.at = at;
    }
}
