import kilim.*;

/** Loops over what may throw, so many turns: divisions, fields, elements, each also where it would be caught; and one that throws each turn. */
class Catches extends Task {
    private int sum;

    public void execute() throws Pausable {
        Sys.print(done(Sys.arg(0), Sys.arg(1)));
    }

    static int done(int kind, int turns) {
        if (kind == 0) return divided(turns);
        if (kind == 1) return dividedAndCaught(turns);
        if (kind == 2) return new Catches().summed(turns);
        if (kind == 3) return new Catches().summedAndCaught(turns);
        if (kind == 4) return gathered(turns);
        if (kind == 5) return gatheredAndCaught(turns);
        return thrown(turns);
    }

    private static int divided(int turns) {
        int sum = 1;
        for (int i = 1; i <= turns; i++) sum = 1000000 / (sum / i + i);
        return sum;
    }

    private static int dividedAndCaught(int turns) {
        int sum = 1;
        try {
            for (int i = 1; i <= turns; i++) sum = 1000000 / (sum / i + i);
        } catch (ArithmeticException e) {
            return -1;
        }
        return sum;
    }

    private int summed(int turns) {
        for (int i = 0; i < turns; i++) sum = sum + i;
        return sum;
    }

    private int summedAndCaught(int turns) {
        try {
            for (int i = 0; i < turns; i++) sum = sum + i;
        } catch (NullPointerException e) {
            return -1;
        }
        return sum;
    }

    private static int gathered(int turns) {
        int[] some = new int[64];
        for (int i = 0; i < turns; i++) some[i & 63] = some[i & 63] + i;
        return some[1];
    }

    private static int gatheredAndCaught(int turns) {
        int[] some = new int[64];
        try {
            for (int i = 0; i < turns; i++) some[i & 63] = some[i & 63] + i;
        } catch (ArrayIndexOutOfBoundsException e) {
            return -1;
        }
        return some[1];
    }

    private static int thrown(int turns) {
        int caught = 0;
        for (int i = 0; i < turns; i++) {
            try {
                caught = caught / (i & 0);
            } catch (ArithmeticException e) {
                caught++;
            }
        }
        return caught;
    }
}
