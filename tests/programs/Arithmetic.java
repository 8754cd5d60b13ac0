import kilim.*;

/** Prints what the instructions on numbers give, for numbers at their edges. */
class Arithmetic extends Task {
    boolean flag;
    byte small;
    char unit;
    short two;

    static void ints(int a, int b) {
        Sys.print(a + b);
        Sys.print(a - b);
        Sys.print(a * b);
        Sys.print(a / b);
        Sys.print(a % b);
        Sys.print(-a);
        Sys.print(a << b);
        Sys.print(a >> b);
        Sys.print(a >>> b);
        Sys.print(a & b);
        Sys.print(a | b);
        Sys.print(a ^ b);
    }

    static void longs(long a, long b) {
        Sys.print(a + b);
        Sys.print(a - b);
        Sys.print(a * b);
        Sys.print(a / b);
        Sys.print(a % b);
        Sys.print(-a);
        Sys.print(a << (int) b);
        Sys.print(a >> b);
        Sys.print(a >>> b);
        Sys.print(a & b);
        Sys.print(a | b);
        Sys.print(a ^ b);
        Sys.print(a < b ? -1 : a == b ? 0 : 1);
        Sys.print((int) a);
    }

    static void narrowed(int a) {
        Sys.print((byte) a);
        Sys.print((short) a);
        Sys.print((char) a);
        Sys.print((long) a);
    }

    static byte asByte(int a) {
        return (byte) a;
    }

    static int chosen(int a) {
        switch (a) {
            case -2: return 10;
            case -1: return 11;
            case 0: return 12;
            case 3: return 13;
            default: return 14;
        }
    }

    static int found(int a) {
        switch (a) {
            case Integer.MIN_VALUE: return 20;
            case -7: return 21;
            case 1000: return 22;
            case Integer.MAX_VALUE: return 23;
            default: return 24;
        }
    }

    static void compared(int a, int b) {
        Sys.print((a == b ? 1 : 0) + (a != b ? 2 : 0) + (a < b ? 4 : 0) + (a >= b ? 8 : 0) + (a > b ? 16 : 0) + (a <= b ? 32 : 0));
        Sys.print((a == 0 ? 1 : 0) + (a != 0 ? 2 : 0) + (a < 0 ? 4 : 0) + (a >= 0 ? 8 : 0) + (a > 0 ? 16 : 0) + (a <= 0 ? 32 : 0));
    }

    void kept(int a) {
        byte[] bytes = new byte[2];
        char[] units = new char[2];
        short[] shorts = new short[2];
        long[] longs = new long[2];
        bytes[1] = (byte) a;
        units[1] = (char) a;
        shorts[1] = (short) a;
        longs[1] += a;
        Sys.print(bytes[1]);
        Sys.print(units[1]);
        Sys.print(shorts[1]);
        Sys.print(longs[1]);
        small = (byte) a;
        unit = (char) a;
        two = (short) a;
        flag = a > 0;
        small += 100;
        unit++;
        Sys.print(small);
        Sys.print(unit);
        Sys.print(two);
        Sys.print(flag ? 1 : 0);
    }

    static void texts(String a) {
        Sys.print(a);
        Sys.print(a.length());
        Sys.print(a.charAt(a.length() - 1));
        Sys.print(a.equals("kil\u00edm") ? 1 : 0);
        Sys.print(a.equals(null) ? 1 : 0);
    }

    public void execute() throws Pausable {
        int[] ones = {7, -7, Integer.MIN_VALUE, Integer.MAX_VALUE, 1, -1};
        int[] others = {2, 2, -1, 33, -31, 1};
        for (int i = 0; i < ones.length; i++) {
            ints(ones[i], others[i]);
            narrowed(ones[i] + others[i] * 100);
            compared(ones[i], others[i]);
            kept(ones[i] * 77);
            Sys.print(asByte(ones[i]));
            Sys.print(chosen(others[i]));
            Sys.print(found(ones[i]));
        }
        compared(5, 5);
        long[] firsts = {7L, -7L, Long.MIN_VALUE, Long.MAX_VALUE, 4294967296L};
        long[] seconds = {2L, 2L, -1L, 65L, -63L};
        for (int i = 0; i < firsts.length; i++) {
            longs(firsts[i], seconds[i]);
        }
        longs(5L, 5L);
        for (int i = 1; i < 400000000; i += 123456789) {
            Sys.print(i);
        }
        texts("kil\u00edm");
        texts("\u0000\"\\\ud83d\ude00");
        int local = 5;
        local += 300;
        local -= 1000;
        Sys.print(local);
        Sys.print(chosen(-2));
        Sys.print(found(1000));
    }
}
