import kilim.*;

/** A number, a name, or an operator with two parts, which are this term's alone. */
public class Term implements Message {
    static final int NUMBER = 0;
    static final int NAME = 1;
    static final int SUM = 2;
    static final int PRODUCT = 3;

    int kind;
    int number;
    String name;
    Term left;
    Term right;

    public Term(int number) {
        this.number = number;
    }

    public Term(String name) {
        kind = NAME;
        this.name = name;
    }

    public Term(int kind, @Free Term left, @Free Term right) {
        this.kind = kind;
        this.left = left;
        this.right = right;
    }

    public boolean isNumber(int number) {
        return kind == NUMBER && this.number == number;
    }
}
