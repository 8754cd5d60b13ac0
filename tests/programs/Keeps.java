import kilim.*;

/** Keeps numbers at their edges, texts, mailboxes, arrays and null across pauses, in variables and below what a call is given. */
class Keeps extends Task {
    long field = Long.MIN_VALUE + 5;

    public void execute() throws Pausable {
        Mailbox box = new Mailbox();
        long large = Long.MAX_VALUE - Sys.argCount();
        long small = -4294967297L;
        int least = Integer.MIN_VALUE;
        byte narrow = -128;
        char unit = '\uffff';
        boolean flag = true;
        String text = "kept";
        String nothing = null;
        int[] numbers = {1, -2, 3};
        long[] longs = {large, small};
        for (int i = 0; i < 3; i++) {
            box.put(new Ball(i));
            Sys.yield();
            small = small + weighed(large, i, box) * i - least;
            Sys.print(small);
            Sys.print(least + numbers[i] + narrow);
        }
        Sys.print(large);
        Sys.print(unit);
        Sys.print(flag ? 1 : 0);
        Sys.print(text);
        Sys.print(nothing);
        Sys.print(longs[1]);
        Sys.print(field);
    }

    private long weighed(long weight, int times, Mailbox box) throws Pausable {
        long sum = field + weight / (times + 1) + taken(box);
        field = field + 1;
        return sum;
    }

    private static int taken(Mailbox box) throws Pausable {
        Sys.yield();
        Ball ball = (Ball) box.get();
        return ball.number;
    }
}
