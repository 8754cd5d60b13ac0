package kilim;

/** The members of a fiber that woven code calls: nothing of them does anything. */
public final class Fiber {
    private Fiber() {}

    /** The place where the method paused, or 0. */
    public int pc() {
        return 0;
    }

    /** One level down. */
    public Fiber down() {
        return this;
    }

    /** One level up: 1 while it is pausing. */
    public int up() {
        return 0;
    }

    /** Saves a number. */
    public static void saveI(int value, Fiber fiber) {}

    /** Saves a number. */
    public static void saveJ(long value, Fiber fiber) {}

    /** Saves a reference. */
    public static void saveA(Object value, Fiber fiber) {}

    /** Sets place and receiver of a record. */
    public static void place(int place, Object receiver, Fiber fiber) {}

    /** The number that was saved last. */
    public int restI() {
        return 0;
    }

    /** The number that was saved last. */
    public long restJ() {
        return 0;
    }

    /** The reference that was saved last. */
    public Object restA() {
        return null;
    }

    /** The receiver of the record one level deeper. */
    public Object receiver() {
        return null;
    }
}
