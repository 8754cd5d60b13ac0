package kilim;

/**
 * What a task may ask of the outside. Each print is a line of the journal, behind the number of its task. An end as {@code null} or
 * {@code index} is an exception of Java that nothing caught.
 */
public final class Sys {
    /** Nobody makes one. */
    private Sys() {}

    /**
     * Prints a number. A {@code char} and a {@code boolean} have no print of their own: a {@code char} prints its number.
     *
     * @param number an {@code int}: the line has its digits
     */
    public static void print(int number) {}

    /**
     * Prints a number.
     *
     * @param number a {@code long}: the line has its digits and an {@code L}
     */
    public static void print(long number) {}

    /**
     * Prints a text.
     *
     * @param text the text, or null: the line has it in quotes, or {@code null}
     */
    public static void print(String text) {}

    /**
     * Lets the other tasks go on first.
     *
     * @throws Pausable never: it says that the call pauses
     */
    public static void yield() throws Pausable {}

    /**
     * How many arguments the command line gives, behind {@code --}.
     *
     * @return how many there are
     */
    public static int argCount() {
        return 0;
    }

    /**
     * An argument of the command line. A place without one ends the task, as {@code end index}.
     *
     * @param place its place, counted from 0
     * @return the argument
     */
    public static int arg(int place) {
        return 0;
    }

    /**
     * Cuts an element from an array: it is read, and null takes its place. Of an array of arrays none can be taken: hold each in a
     * message.
     *
     * <p>A null array ends the task, as {@code end null}; a place that it doesn't have ends it, as {@code end index}.
     *
     * @param array an array from which may be cut
     * @param place the place of the element, counted from 0
     * @return the element, the root of a tree that is the caller's own, or null
     */
    public static Message take(@Cuttable Message[] array, int place) {
        return null;
    }
}
