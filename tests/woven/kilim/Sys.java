package kilim;

/** What a task may ask of the outside, in woven form: nothing of it does anything. */
public final class Sys {
    private Sys() {}

    /** Prints a number. */
    public static void print(int number) {}

    /** Prints a number. */
    public static void print(long number) {}

    /** Prints a text. */
    public static void print(String text) {}

    /**
     * Lets the other tasks go on first.
     *
     * @param fiber the fiber of the task
     */
    public static void yield(Fiber fiber) throws Pausable {}

    /** How many arguments the command line gives. */
    public static int argCount() {
        return 0;
    }

    /** An argument of the command line. */
    public static int arg(int place) {
        return 0;
    }

    /** Cuts an element from an array. */
    public static Message take(Message[] array, int place) {
        return null;
    }
}
