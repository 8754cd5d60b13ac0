import kilim.*;

/** Loops of one kind each, so many turns: counting, fields, arrays, static calls, calls on an object. */
class Loops extends Task {
    private int sum;

    public void execute() throws Pausable {
        Sys.print(done(Sys.arg(0), Sys.arg(1)));
    }

    static int done(int kind, int turns) {
        if (kind == 0) return counted(turns);
        if (kind == 1) return new Loops().summed(turns);
        if (kind == 2) return gathered(turns);
        if (kind == 3) return called(turns);
        return new Loops().asked(turns);
    }

    private static int counted(int turns) {
        int sum = 0;
        for (int i = 0; i < turns; i++) sum++;
        return sum;
    }

    private int summed(int turns) {
        for (int i = 0; i < turns; i++) sum = sum + i;
        return sum;
    }

    private static int gathered(int turns) {
        int[] some = new int[64];
        for (int i = 0; i < turns; i++) some[i & 63] = some[i & 63] + i;
        return some[1];
    }

    private static int called(int turns) {
        int sum = 0;
        for (int i = 0; i < turns; i++) sum = more(sum, i);
        return sum;
    }

    private static int more(int a, int b) {
        return a + b;
    }

    private int asked(int turns) {
        int n = 0;
        for (int i = 0; i < turns; i++) n = next(n);
        return n;
    }

    int next(int n) {
        return n + 1;
    }
}
