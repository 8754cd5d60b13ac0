import kilim.*;

/** Reads texts as numbers, one after the other, up to the one that has none. */
public class Reader extends Task {
    Mailbox in;
    Mailbox out;

    public Reader(Mailbox in, Mailbox out) {
        this.in = in;
        this.out = out;
    }

    public void execute() throws Pausable {
        boolean last = false;
        while (!last) {
            Text text = (Text) in.get();
            read(text);
            last = text.text == null;
            out.put(text);
        }
    }

    /** Answers in the text itself. A method that pauses can't catch, so what may fail stands in one that doesn't. */
    static void read(Text text) {
        try {
            text.number = number(text.text);
        } catch (BadNumber e) {
            text.number = e.at;
            text.fault = e.what;
        } catch (NullPointerException e) {
            text.fault = "no text";
        }
    }

    static int number(String text) {
        if (text.length() == 0) {
            throw new BadNumber("empty", 0);
        }
        int number = 0;
        for (int at = 0; at < text.length(); at++) {
            int digit = text.charAt(at) - '0';
            if (digit < 0 || digit > 9) {
                throw new BadNumber("not a digit", at);
            }
            if (number > (Integer.MAX_VALUE - digit) / 10) {
                throw new BadNumber("too large", at);
            }
            number = 10 * number + digit;
        }
        return number;
    }
}
