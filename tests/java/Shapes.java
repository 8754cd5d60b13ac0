package shapes;

import java.lang.annotation.ElementType;
import java.lang.annotation.Retention;
import java.lang.annotation.RetentionPolicy;
import java.lang.annotation.Target;
import java.util.ArrayList;
import java.util.List;
import java.util.function.IntUnaryOperator;

/** Constants of all kinds, annotations with all kinds of values, nested classes, enums, lambdas, handlers, switches. */
public class Shapes<T extends Comparable<T>> implements java.io.Serializable {
    private static final long serialVersionUID = -3L;
    static final int I = -5;
    static final float F = 1.5f;
    static final double D = -0.0;
    static final String S = "\u0000\u00e9\u20ac\ud83d\ude00";
    static final char C = 'c';
    static final boolean Z = true;
    static final byte B = -1;
    static final short H = 300;

    enum Kind { ONE, TWO { int n() { return 2; } }; int n() { return 1; } }

    @Retention(RetentionPolicy.RUNTIME)
    @interface Inner { int value() default 7; }

    @Retention(RetentionPolicy.RUNTIME)
    @Target({ElementType.TYPE, ElementType.METHOD, ElementType.PARAMETER, ElementType.FIELD})
    @interface All {
        byte b() default 1; char c() default 'x'; double d() default 2.5; float f() default 0.5f; int i() default 4;
        long j() default 5L; short s() default 6; boolean z() default true; String t() default "text";
        Kind e() default Kind.ONE; Class<?> k() default Object.class; Inner a() default @Inner(9);
        Inner[] as() default {@Inner(1), @Inner}; int[] none() default {};
    }

    @Retention(RetentionPolicy.CLASS)
    @interface Unseen { String value(); }

    @All(b = 2, c = 'y', d = 1e300, f = 2f, i = 3, j = 1L << 40, s = 9, z = false, t = "", e = Kind.TWO, k = int[].class,
         a = @Inner(3), as = {}, none = {1, 2, 3})
    @Unseen("field")
    protected volatile int annotated;

    @Deprecated
    @All
    @Unseen("method")
    public int method(@All int x, @Unseen("parameter") long y, T t) throws java.io.IOException, IllegalStateException {
        int sum = 0;
        try {
            for (int i = 0; i < x; i++) {
                switch (i) { case 0: sum += 1; break; case 1: case 2: sum += 2; break; case 3: sum -= 1; default: sum *= 2; }
                switch (i * 1000) { case -70000: sum++; break; case 1000: sum--; break; case 123456789: sum = 0; }
                if (y > i && t != null) { sum += t.compareTo(t); } else if (x == 77) { throw new java.io.IOException("no"); }
            }
        } catch (IllegalStateException e) {
            sum = -1;
        } finally {
            sum += 3;
        }
        synchronized (this) { annotated = sum; }
        return sum;
    }

    abstract static class Base { abstract long f(long a, double b); native int g(); synchronized void h() { } }

    class Within { int n = annotated; int more(Object o) { return o instanceof String ? ((String) o).length() : n; } }

    static int lambdas(int n) {
        IntUnaryOperator twice = x -> x * 2;
        IntUnaryOperator more = x -> x + n;
        List<Runnable> list = new ArrayList<>();
        list.add(() -> System.out.println("once"));
        list.forEach(Runnable::run);
        long[][] grid = new long[3][4];
        grid[1][2] = 1L << 33;
        return twice.andThen(more).applyAsInt((int) grid[1][2]);
    }

    static String text(String a, int b) { String s = "x"; assert b > 0; s += a + b; switch (s) { case "x1": return "1"; default: return s; } }
}
