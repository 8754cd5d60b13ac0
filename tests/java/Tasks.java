package tasks;

/** Code with every form of frame, wide locals, long jumps and large constants. */
public class Tasks {
    interface Worker { int work(int n); default int twice(int n) { return work(work(n)); } static Worker none() { return n -> n; } }

    static int wide(int seed) {
        long a0 = seed, a1 = 1, a2 = 2, a3 = 3, a4 = 4, a5 = 5, a6 = 6, a7 = 7, a8 = 8, a9 = 9;
        double b0 = seed, b1 = 1, b2 = 2, b3 = 3, b4 = 4;
        int count = 0;
        while (count < seed) {
            int one = count;
            if (one % 2 == 0) { String s = "even"; count += s.length(); } else { Object o = null; int two = 2; float f = two; count += f > 1 ? 1 : o == null ? 2 : 3; }
            count += 1000;
        }
        do { count--; } while (count > 0 && a0 + a1 + a2 + a3 + a4 + a5 + a6 + a7 + a8 + a9 > b0 + b1 + b2 + b3 + b4);
        return count;
    }

    static int handlers(Object o) {
        try { try { return o.hashCode(); } catch (NullPointerException e) { return 1; } } catch (RuntimeException | Error e) { return 2; } finally { o = null; }
    }

    static <X> X[] copy(X[] xs, int n) { X[] ys = xs.clone(); for (int i = 0; i < ys.length && i < n; ++i) { ys[i] = xs[xs.length - 1 - i]; } return ys; }

    private Tasks(int... ns) { this(ns.length, 1.0f); }
    protected Tasks(int n, float f) { super(); }
    static { System.setProperty("tasks", String.valueOf(Integer.MAX_VALUE) + Long.MIN_VALUE + Double.NaN + Float.POSITIVE_INFINITY); }
}
